// The matches of all slots of a run, two bytes for each output of each slot.
(function (viewer) {
    "use strict";

    const UNICAST = 0;
    const MULTICAST = 1;
    const LEVELS = 4;
    const MAX_PORTS = 64;
    /** In the place of an input: the output is free. */
    const FREE = 255;

    /** The place of a level and kind among the eight, as files of both forms count them. */
    function queueCode(level, kind) {
        return 2 * level + kind;
    }

    class Matches {
        constructor(ports, slots) {
            this.ports = ports;
            this.slots = slots;
            /** For each slot and output the input that feeds it, or FREE. */
            this.inputs = new Uint8Array(ports * slots).fill(FREE);
            /** For each slot and output the level and kind, as queueCode() gives it. */
            this.queues = new Uint8Array(ports * slots);
        }

        set(slot, output, input, queue) {
            const place = slot * this.ports + output;
            this.inputs[place] = input;
            this.queues[place] = queue;
        }

        /** How many outputs are fed in a slot. */
        count(slot) {
            const start = slot * this.ports;
            let fed = 0;
            for (let output = 0; output < this.ports; output += 1) {
                fed += this.inputs[start + output] === FREE ? 0 : 1;
            }
            return fed;
        }

        /** The matched pairs of a slot, by rising output. */
        pairs(slot) {
            const found = [];
            const start = slot * this.ports;
            for (let output = 0; output < this.ports; output += 1) {
                const input = this.inputs[start + output];
                if (input !== FREE) {
                    const queue = this.queues[start + output];
                    found.push({ input, output, level: queue >> 1, kind: queue & 1 });
                }
            }
            return found;
        }
    }

    viewer.UNICAST = UNICAST;
    viewer.MULTICAST = MULTICAST;
    viewer.LEVELS = LEVELS;
    viewer.MAX_PORTS = MAX_PORTS;
    viewer.FREE = FREE;
    viewer.queueCode = queueCode;
    viewer.Matches = Matches;
})(globalThis.SlotViewer = globalThis.SlotViewer || {});
