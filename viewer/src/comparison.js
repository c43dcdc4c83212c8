// Where two runs of as many ports differ, slot by slot.
(function (viewer) {
    "use strict";

    const { Pyramid, FREE, UNICAST, MULTICAST, LEVELS } = viewer;

    /** What feeds an output in a slot, as one number; -1 for nothing, as beyond the last slot of a run. */
    function feedOf({ ports, matches, slots }, slot, output) {
        const place = slot * ports + output;
        return slot >= slots || matches.inputs[place] === FREE ? -1 : 8 * matches.inputs[place] + matches.queues[place];
    }

    class Comparison {
        /** `one` and `other` are runs of as many ports whose matches are known. */
        constructor(one, other) {
            this.slots = Math.max(one.slots, other.slots);
            /** The slots in which the matches differ, in order, and by slot whether they do. */
            this.differing = [];
            this.differences = new Pyramid(this.slots, 1, "sum", Uint8Array);
            for (let slot = 0; slot < this.slots; slot += 1) {
                for (let output = 0; output < one.ports; output += 1) {
                    if (feedOf(one, slot, output) !== feedOf(other, slot, output)) {
                        this.differing.push(slot);
                        this.differences.set(slot, 0, 1);
                        break;
                    }
                }
            }
        }
    }

    function pairKey({ input, output, level, kind }) {
        return `${input}>${output}:${level}${kind}`;
    }

    /** The pairs of a slot of one run that the other run does not have in the same slot. */
    function pairsOnlyIn(view, other) {
        const there = new Set(other.pairs.map(pairKey));
        return view.pairs.filter((pair) => !there.has(pairKey(pair)));
    }

    /** Names a queue: one of unicast also by its output. */
    function queueKey(input, output, level, kind) {
        return kind === UNICAST ? `${input}>${output}:${level}u` : `${input}:${level}m`;
    }

    /** By the name of a queue its wait, and what it is; a multicast head is one queue. */
    function waitsOf(view) {
        const found = new Map();
        if (view.walker === null) {
            return found;
        }
        for (let input = 0; input < view.ports; input += 1) {
            for (let level = 0; level < LEVELS; level += 1) {
                for (const output of view.posted(input, UNICAST, level)) {
                    const wait = view.wait(input, UNICAST, level, output);
                    found.set(queueKey(input, output, level, UNICAST), { input, outputs: [output], level, kind: UNICAST, wait });
                }
                const outputs = view.posted(input, MULTICAST, level);
                if (outputs.length > 0) {
                    const wait = view.wait(input, MULTICAST, level);
                    found.set(queueKey(input, null, level, MULTICAST), { input, outputs, level, kind: MULTICAST, wait });
                }
            }
        }
        return found;
    }

    /**
     * By name the queues whose waits differ in a slot of two journals, the greatest difference first: each
     * with its wait here and there, null where it is not posted. Null where a wait is not known.
     */
    function waitsThatDiffer(view, other) {
        const isKnown = (one) => one.isEnded || one.walker !== null;
        if (!isKnown(view) || !isKnown(other)) {
            return null;
        }
        const here = waitsOf(view);
        const there = waitsOf(other);
        const found = [];
        for (const key of new Set([...here.keys(), ...there.keys()])) {
            const queue = here.get(key) || there.get(key);
            const wait = here.has(key) ? here.get(key).wait : null;
            const otherWait = there.has(key) ? there.get(key).wait : null;
            if ((wait || 0) !== (otherWait || 0)) {
                found.push([key, { ...queue, wait, otherWait }]);
            }
        }
        const size = ([, queue]) => Math.abs((queue.wait || 0) - (queue.otherWait || 0));
        return new Map(found.sort((a, b) => size(b) - size(a)));
    }

    /** The same queues with the waits of the other run in the place of this one's; null stays null. */
    function seenFromThere(unlikeWaits) {
        const turned = ([key, queue]) => [key, { ...queue, wait: queue.otherWait, otherWait: queue.wait }];
        return unlikeWaits === null ? null : new Map([...unlikeWaits].map(turned));
    }

    viewer.queueKey = queueKey;
    viewer.Comparison = Comparison;
    viewer.pairsOnlyIn = pairsOnlyIn;
    viewer.waitsThatDiffer = waitsThatDiffer;
    viewer.seenFromThere = seenFromThere;
})(globalThis.SlotViewer = globalThis.SlotViewer || {});
