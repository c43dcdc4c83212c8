// How long the queues of a journal have waited, slot after slot.
(function (viewer) {
    "use strict";

    const { portSets, UNICAST, MULTICAST, LEVELS } = viewer;

    /** In the place of a slot: the queue is not posted. */
    const NEVER = 0x7fffffff;

    /**
     * The wait of a unicast queue in a slot is the number of slots in a row, up to this one, in
     * which it was posted and not matched as unicast of its level. That of a multicast head is
     * the number of slots in a row, up to this one, in which its input posted a head of the level
     * and none was served whole.
     */
    class Waits {
        constructor(ports) {
            this.ports = ports;
            /** By input, level and output: the slot in which the wait is 1, or NEVER. */
            this.since = new Int32Array(ports * LEVELS * ports).fill(NEVER);
            /** The same by input and level for the multicast heads. */
            this.headSince = new Int32Array(ports * LEVELS).fill(NEVER);
            /** By input: the least slot in `since`. */
            this.oldestOfInput = new Int32Array(ports).fill(NEVER);
            this.oldestOfOutput = new Int32Array(ports).fill(NEVER);
            this.staleInputs = new Uint8Array(ports);
            this.staleOutputs = new Uint8Array(ports);
            /** By level: the longest wait of a unicast queue that has ended. */
            this.longestEnded = [0, 0, 0, 0];
        }

        copyFrom(other) {
            this.since.set(other.since);
            this.headSince.set(other.headSince);
            this.oldestOfInput.set(other.oldestOfInput);
            this.oldestOfOutput.set(other.oldestOfOutput);
            this.longestEnded = other.longestEnded.slice();
        }

        /** Goes on by a slot: its rows, the rows of the slot before, and what it served of its rows. */
        advance(slot, rows, before, served) {
            for (let input = 0; input < this.ports; input += 1) {
                for (let level = 0; level < LEVELS; level += 1) {
                    this.noteRow(slot, input, level, rows, before);
                    this.noteServed(slot, input, level, rows, served);
                    this.noteHead(slot, input, level, rows, served);
                }
            }
            this.refresh();
        }

        noteRow(slot, input, level, rows, before) {
            const place = rows.place(input, UNICAST, level);
            for (let word = 0; word < 2; word += 1) {
                const now = rows.words[place + word];
                const changed = now ^ before.words[place + word];
                for (let rest = changed; rest !== 0; rest &= rest - 1) {
                    const bit = portSets.lowestBit(rest);
                    const isPosted = (now >>> bit & 1) === 1;
                    this.restart(slot, input, level, 32 * word + bit, isPosted ? slot : NEVER);
                }
            }
        }

        /** Ends the wait of a queue, which is then counted from slot `from`. */
        restart(slot, input, level, output, from) {
            const place = (input * LEVELS + level) * this.ports + output;
            const old = this.since[place];
            this.longestEnded[level] = Math.max(this.longestEnded[level], slot - old);
            this.since[place] = from;
            if (old === this.oldestOfInput[input]) {
                this.staleInputs[input] = 1;
            }
            if (old === this.oldestOfOutput[output]) {
                this.staleOutputs[output] = 1;
            }
            this.oldestOfInput[input] = Math.min(this.oldestOfInput[input], from);
            this.oldestOfOutput[output] = Math.min(this.oldestOfOutput[output], from);
        }

        noteServed(slot, input, level, rows, served) {
            const place = rows.place(input, UNICAST, level);
            for (let word = 0; word < 2; word += 1) {
                for (let rest = rows.words[place + word] & served.words[place + word]; rest !== 0; rest &= rest - 1) {
                    this.restart(slot, input, level, 32 * word + portSets.lowestBit(rest), slot + 1);
                }
            }
        }

        noteHead(slot, input, level, rows, served) {
            const place = rows.place(input, MULTICAST, level);
            const index = input * LEVELS + level;
            const low = rows.words[place];
            const high = rows.words[place + 1];
            if ((low | high) === 0) {
                this.headSince[index] = NEVER;
            } else if ((low & ~served.words[place] | high & ~served.words[place + 1]) === 0) {
                this.headSince[index] = slot + 1;
            } else {
                this.headSince[index] = Math.min(this.headSince[index], slot);
            }
        }

        /** Finds the least slot again where it may have risen. */
        refresh() {
            const { ports, since } = this;
            for (let port = 0; port < ports; port += 1) {
                if (this.staleInputs[port]) {
                    this.staleInputs[port] = 0;
                    this.oldestOfInput[port] = leastOf(since, port * LEVELS * ports, 1, LEVELS * ports);
                }
                if (this.staleOutputs[port]) {
                    this.staleOutputs[port] = 0;
                    this.oldestOfOutput[port] = leastOf(since, port, ports, LEVELS * ports);
                }
            }
        }

        ofQueue(slot, input, level, output) {
            return waitFrom(slot, this.since[(input * LEVELS + level) * this.ports + output]);
        }

        ofHead(slot, input, level) {
            return waitFrom(slot, this.headSince[input * LEVELS + level]);
        }

        /** The longest wait of a unicast queue of an input. */
        ofInput(slot, input) {
            return waitFrom(slot, this.oldestOfInput[input]);
        }

        /** The longest wait of a unicast queue for an output. */
        ofOutput(slot, output) {
            return waitFrom(slot, this.oldestOfOutput[output]);
        }

        /** By level the longest wait of a unicast queue in all slots up to this one. */
        longest(slot) {
            const { ports, since } = this;
            return this.longestEnded.map((ended, level) => {
                let longest = ended;
                for (let input = 0; input < ports; input += 1) {
                    const oldest = leastOf(since, (input * LEVELS + level) * ports, 1, ports);
                    longest = Math.max(longest, waitFrom(slot, oldest));
                }
                return longest;
            });
        }
    }

    function waitFrom(slot, since) {
        return Math.max(0, slot - since + 1);
    }

    function leastOf(values, start, stride, count) {
        let least = NEVER;
        for (let k = 0, at = start; k < count; k += 1, at += stride) {
            if (values[at] < least) {
                least = values[at];
            }
        }
        return least;
    }

    viewer.Waits = Waits;
})(globalThis.SlotViewer = globalThis.SlotViewer || {});
