// What is in the queues of a run, slot by slot, from its packets file and its matches.
(function (viewer) {
    "use strict";

    const { FileFault, UNICAST, LEVELS } = viewer;

    const SLOTS_A_STEP = 256;

    /** The cells of one queue, in order: those of one input, level and kind, of unicast also of one output. */
    class CellQueue {
        constructor() {
            /** The admitted packets, each with the number of its first cell in the queue. */
            this.packets = [];
            this.cells = 0;
            /** By cell the slot whose match serves it, of multicast for the last of its outputs. */
            this.servedIn = [];
            /** Of a multicast head that is served in part: the outputs that it has left for. */
            this.left = new Set();
        }

        admit(packet) {
            this.packets.push({ packet, start: this.cells });
            this.cells += packet.cells;
        }

        /** How many cells came in all slots up to this one. */
        arrived(slot) {
            const index = d3.bisector(({ packet }) => packet.arrival).right(this.packets, slot);
            return index === 0 ? 0 : this.packets[index - 1].start + this.packets[index - 1].packet.cells;
        }

        /** How many cells were served in the slots before this one. */
        served(slot) {
            return d3.bisectLeft(this.servedIn, slot);
        }

        /** How many cells wait in a slot, before it is served. */
        length(slot) {
            return this.arrived(slot) - this.served(slot);
        }

        /** The packet of a cell, with the number of its first cell. */
        packetOf(cell) {
            return this.packets[d3.bisector(({ start }) => start).right(this.packets, cell) - 1];
        }

        /** The packets of which cells wait in a slot: each with the number of them, and of those before it. */
        waiting(slot) {
            const served = this.served(slot);
            const arrived = this.arrived(slot);
            if (arrived === served) {
                return [];
            }
            const first = d3.bisector(({ start }) => start).right(this.packets, served) - 1;
            return this.packets.slice(first).filter(({ start }) => start < arrived).map(({ packet, start }) => {
                const ahead = Math.max(0, start - served);
                return { packet, ahead, cells: start + packet.cells - Math.max(start, served) };
            });
        }

        /** Serves the head for some outputs in a slot; fails where nothing waits for them. */
        serve(slot, outputs) {
            const cell = this.servedIn.length;
            if (cell >= this.arrived(slot)) {
                throw new FileFault(`the run serves a queue in slot ${slot} in which no packet of the packets file waits`);
            }
            const { packet, start } = this.packetOf(cell);
            outputs.forEach((output) => this.serveOne(slot, output, packet, cell === start + packet.cells - 1));
            if (this.left.size === packet.outputs.length) {
                this.servedIn.push(slot);
                this.left.clear();
            }
        }

        serveOne(slot, output, packet, isLast) {
            const place = packet.outputs.indexOf(output);
            const name = `packet ${packet.packet} of input ${packet.input}`;
            if (place < 0 || this.left.has(output)) {
                throw new FileFault(`the run feeds output ${output} in slot ${slot}, for which no cell of ${name} waits`);
            }
            this.left.add(output);
            if (isLast && packet.departures[place] !== slot + 1) {
                throw new FileFault(`the last cell of ${name} crosses to output ${output} in slot ${slot + 1} by the run, `
                    + `and in slot ${packet.departures[place]} by the packets file`);
            }
        }
    }

    class PacketQueues {
        constructor(run, packets) {
            this.ports = run.ports;
            this.packets = packets;
            this.unicast = new Map();
            this.multicast = new Map();
            packets.list.filter((one) => one.state === "forwarded").sort((a, b) => a.arrival - b.arrival)
                .forEach((packet) => this.make(packet.input, packet.kind, packet.level, packet.outputs[0]).admit(packet));
            /** The greatest length of a queue in any slot, and the place of the first queue that reaches it, or null. */
            this.deepest = 0;
            this.deepestPlace = null;
        }

        key(input, kind, level, output) {
            return (input * LEVELS + level) * this.ports + (kind === UNICAST ? output : 0);
        }

        mapOf(kind) {
            return kind === UNICAST ? this.unicast : this.multicast;
        }

        make(input, kind, level, output) {
            const map = this.mapOf(kind);
            const key = this.key(input, kind, level, output);
            if (!map.has(key)) {
                map.set(key, new CellQueue());
            }
            return map.get(key);
        }

        /** The queue, or null where no packet was admitted to it; `output` is of unicast alone. */
        find(input, kind, level, output) {
            return this.mapOf(kind).get(this.key(input, kind, level, output)) || null;
        }

        findOf({ input, kind, level, outputs }) {
            return this.find(input, kind, level, outputs[0]);
        }

        serveSlot(slot, pairs) {
            const heads = new Map();
            for (const { input, output, level, kind } of pairs) {
                const queue = this.find(input, kind, level, output);
                if (queue === null) {
                    throw new FileFault(`the run feeds output ${output} from input ${input} in slot ${slot}, `
                        + "and the packets file has no such packet");
                }
                heads.set(queue, (heads.get(queue) || []).concat(output));
            }
            heads.forEach((outputs, queue) => queue.serve(slot, outputs));
        }

        /** Notes the length of a queue in the slot in which a packet comes to it. */
        noteLength({ input, outputs, level, kind }, length) {
            if (length > this.deepest) {
                this.deepest = length;
                this.deepestPlace = { input, output: outputs[0], level, kind };
            }
        }

        needEmpty() {
            for (const map of [this.unicast, this.multicast]) {
                for (const queue of map.values()) {
                    if (queue.servedIn.length < queue.cells) {
                        const { packet } = queue.packetOf(queue.servedIn.length);
                        throw new FileFault(`packet ${packet.packet} of input ${packet.input} does not depart in the run`);
                    }
                    queue.packets.forEach(({ packet }) => this.noteLength(packet, queue.length(packet.arrival)));
                }
            }
        }
    }

    /**
     * A generator that puts the packets of a file into the queues of a run and serves them as its
     * slots do; it returns the queues. Throws FileFault where the file is not that of the run.
     */
    function* fillQueues(run, packets) {
        if (packets.ports > run.ports) {
            throw new FileFault(`it names port ${packets.ports - 1}, and the run has ${viewer.plural(run.ports, "port")}`);
        }
        const queues = new PacketQueues(run, packets);
        for (let slot = 0; slot < run.slots; slot += 1) {
            queues.serveSlot(slot, run.matches.pairs(slot));
            if (slot % SLOTS_A_STEP === 0) {
                yield slot / run.slots;
            }
        }
        queues.needEmpty();
        return queues;
    }

    viewer.fillQueues = fillQueues;
})(globalThis.SlotViewer = globalThis.SlotViewer || {});
