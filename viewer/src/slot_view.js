// What is to be shown of one slot.
(function (viewer) {
    "use strict";

    const { portSets, UNICAST, MULTICAST, LEVELS } = viewer;

    const KIND_NAMES = ["unicast", "multicast"];

    class SlotView {
        /**
         * `walker` is null for a report, or stands at the slot, or stands elsewhere while it cannot.
         * `queues` is what the packets file says of the queues, or null.
         */
        constructor(run, slot, walker, queues = null) {
            this.run = run;
            this.slot = slot;
            this.ports = run.ports;
            this.queues = queues;
            /** Whether the run ended before this slot; beside a longer run it is shown empty. */
            this.isEnded = slot >= run.slots;
            /** The matched pairs, by rising output. */
            this.pairs = this.isEnded ? [] : run.matches.pairs(slot);
            this.rows = null;
            /** The pointers from which the slot was decided; null where they are not known. */
            this.pointers = null;
            this.walker = null;
            this.differing = [];
            this.waitingQueues = null;
            this.used = null;
            this.first = null;
            if (this.isEnded) {
                return;
            }
            if (run.form === "report") {
                this.used = run.used[slot];
                this.first = run.first[slot];
            } else if (walker !== null && walker.slot === slot) {
                this.walker = walker;
                this.rows = walker.rows;
                this.pointers = walker.pointers;
                this.differing = walker.differingOutputs();
                this.used = walker.scheduler.used;
                this.first = walker.scheduler.first;
            } else {
                this.rows = new viewer.Rows(this.ports);
                run.readRows(slot, this.rows);
            }
        }

        get isComplete() {
            return this.run.form === "report" || this.walker !== null;
        }

        /** The set of outputs that an input posted with a kind and level, in rising order. */
        posted(input, kind, level) {
            const place = this.rows.place(input, kind, level);
            return portSets.members(this.rows.words[place], this.rows.words[place + 1]);
        }

        /** How long a unicast queue has waited, or the multicast head of an input; null where not known. */
        wait(input, kind, level, output) {
            if (this.walker === null) {
                return null;
            }
            const { waits } = this.walker;
            return kind === UNICAST ? waits.ofQueue(this.slot, input, level, output) : waits.ofHead(this.slot, input, level);
        }

        /** What is posted of one level, or of all: calls `visit(input, output, level, kind, wait)`. */
        eachPosted(levels, visit) {
            for (let input = 0; input < this.ports; input += 1) {
                for (const level of levels) {
                    for (const kind of [UNICAST, MULTICAST]) {
                        for (const output of this.posted(input, kind, level)) {
                            visit(input, output, level, kind, this.wait(input, kind, level, output));
                        }
                    }
                }
            }
        }

        /** The queues in which cells wait: calls `visit(input, output, level, kind, length)` for each of their outputs. */
        eachLength(levels, visit) {
            for (let input = 0; input < this.ports; input += 1) {
                for (const level of levels) {
                    for (let output = 0; output < this.ports; output += 1) {
                        const length = this.lengthOf(input, UNICAST, level, output);
                        if (length > 0) {
                            visit(input, output, level, UNICAST, length);
                        }
                    }
                    const length = this.lengthOf(input, MULTICAST, level, null);
                    this.outputsOfHead(input, level).forEach((output) => visit(input, output, level, MULTICAST, length));
                }
            }
        }

        /** How many cells of a queue wait, by the packets file. */
        lengthOf(input, kind, level, output) {
            const queue = this.queues.find(input, kind, level, output);
            return queue === null ? 0 : queue.length(this.slot);
        }

        /** The outputs of the first multicast packet of an input and level that waits; what is left of it, where rows are known. */
        outputsOfHead(input, level) {
            if (this.rows !== null) {
                return this.posted(input, MULTICAST, level);
            }
            const queue = this.queues.find(input, MULTICAST, level, null);
            const waiting = queue === null ? [] : queue.waiting(this.slot);
            return waiting.length === 0 ? [] : waiting[0].packet.outputs;
        }

        /** The packets of which cells wait at a crosspoint, by rising level and kind; none without a packets file. */
        packetsAt(input, output) {
            const found = [];
            for (let level = 0; this.queues !== null && level < LEVELS; level += 1) {
                for (const kind of [UNICAST, MULTICAST]) {
                    const queue = this.queues.find(input, kind, level, output);
                    const waiting = queue === null ? [] : queue.waiting(this.slot);
                    found.push(...waiting.filter(({ packet }) => packet.outputs.includes(output)));
                }
            }
            return found;
        }

        /** What is posted at a crosspoint. */
        postedAt(input, output) {
            const found = [];
            for (let level = 0; level < LEVELS; level += 1) {
                for (const kind of [UNICAST, MULTICAST]) {
                    const place = this.rows.place(input, kind, level);
                    if (portSets.has(this.rows.words[place], this.rows.words[place + 1], output)) {
                        found.push({ level, kind, wait: this.wait(input, kind, level, output) });
                    }
                }
            }
            return found;
        }

        /** The queues that wait, the longest wait first; a multicast head is one queue with its outputs. */
        waiting() {
            if (this.waitingQueues === null) {
                this.waitingQueues = this.findWaiting();
            }
            return this.waitingQueues;
        }

        findWaiting() {
            const found = [];
            for (let input = 0; input < this.ports; input += 1) {
                for (let level = 0; level < LEVELS; level += 1) {
                    for (const output of this.posted(input, UNICAST, level)) {
                        const wait = this.wait(input, UNICAST, level, output);
                        found.push({ input, outputs: [output], level, kind: UNICAST, wait });
                    }
                    const fanOut = this.posted(input, MULTICAST, level);
                    if (fanOut.length > 0) {
                        const wait = this.wait(input, MULTICAST, level, fanOut[0]);
                        found.push({ input, outputs: fanOut, level, kind: MULTICAST, wait });
                    }
                }
            }
            return found.filter((queue) => queue.wait > 0).sort((a, b) => b.wait - a.wait);
        }

        /** The pair that feeds an output by the rules, or null. */
        pairByRules(output) {
            const { scheduler } = this.walker;
            const input = scheduler.inputs[output];
            if (input === viewer.FREE) {
                return null;
            }
            const queue = scheduler.queues[output];
            return { input, output, level: queue >> 1, kind: queue & 1 };
        }
    }

    viewer.KIND_NAMES = KIND_NAMES;
    viewer.SlotView = SlotView;
})(globalThis.SlotViewer = globalThis.SlotViewer || {});
