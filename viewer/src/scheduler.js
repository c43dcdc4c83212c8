// One slot of a scheduler: unicast with priorities by iSLIP, FIRM or RRM, multicast in the manner of
// ESLIP. The rules are those of docs/SWITCH.md; src/pointers.js has how the pointers move.
(function (viewer) {
    "use strict";

    const { portSets, UNICAST, MULTICAST, LEVELS, FREE, queueCode } = viewer;

    const QUEUES = 2 * LEVELS;

    /** The kind that a slot prefers: unicast in even slots, multicast in odd ones. */
    function preferredKind(slot) {
        return slot % 2 === 0 ? UNICAST : MULTICAST;
    }

    /** A list of sets of ports, two words each. */
    class SetList {
        constructor(length) {
            this.words = new Int32Array(2 * length);
        }

        add(index, port) {
            this.words[2 * index + (port >> 5)] |= 1 << (port & 31);
        }

        remove(index, port) {
            this.words[2 * index + (port >> 5)] &= ~(1 << (port & 31));
        }

        clear() {
            this.words.fill(0);
        }

        fillWith(index, ports) {
            this.words[2 * index] = ports >= 32 ? -1 : (1 << ports) - 1;
            this.words[2 * index + 1] = ports === 64 ? -1 : ports > 32 ? (1 << (ports - 32)) - 1 : 0;
        }
    }

    const NOTHING = () => {};

    class Scheduler {
        /** `rule` is the name of one of SCHEDULERS. */
        constructor(ports, rounds, rule = "islip") {
            this.ports = ports;
            this.rounds = rounds;
            this.rule = rule;
            /** Told of each round and pointer as a SlotNotes is; null where nobody asks. */
            this.notes = null;
            /** The match of the slot that was decided last: the input of each output, or FREE. */
            this.inputs = new Uint8Array(ports);
            /** Its levels and kinds, as queueCode() gives them. */
            this.queues = new Uint8Array(ports);
            /** How many rounds added a pair, and how many pairs the first and the last one added. */
            this.used = 0;
            this.first = 0;
            this.lastAdded = 0;
            /** For each output the input of its unicast grant of the first round, or FREE, and its level. */
            this.firstGrantInputs = new Uint8Array(ports);
            this.firstGrantLevels = new Uint8Array(ports);
            this.columns = new SetList(QUEUES * ports);
            this.grants = new SetList(QUEUES * ports);
            this.freeInputs = new SetList(1);
            this.freeOutputs = new SetList(1);
            this.granted = new SetList(1);
            /** The outputs that are asked by any input, matched or not. */
            this.asked = new SetList(1);
            this.eligible = new SetList(QUEUES);
            /** By level: the inputs matched as multicast of it, which ask for the rest of the fan-out. */
            this.open = new SetList(LEVELS);
        }

        /** Decides a slot over its rows, and moves the pointers as the slot moves them. */
        decide(slot, rows, pointers) {
            this.inputs.fill(FREE);
            this.queues.fill(0);
            this.open.clear();
            this.freeInputs.fillWith(0, this.ports);
            this.freeOutputs.fillWith(0, this.ports);
            this.fillColumns(rows);
            this.used = 0;
            this.first = 0;
            this.lastAdded = 0;
            this.firstGrantInputs.fill(FREE);
            for (let round = 0; round < this.rounds; round += 1) {
                this.round = round;
                this.findEligible();
                if (this.notes !== null) {
                    this.notes.beginRound(this, round);
                }
                this.grantAll(slot, pointers);
                const added = this.acceptAll(slot, rows, pointers);
                if (round === 0) {
                    this.first = added.length;
                }
                this.lastAdded = added.length;
                if (added.length === 0) {
                    // A round that adds nothing leaves the next one where it stood.
                    break;
                }
                this.used = round + 1;
            }
            const note = this.notes === null ? NOTHING : (move) => this.notes.move(move);
            viewer.movePointers(this, rows, pointers, note);
        }

        /** Each input asks an output at the best level that names it, with each kind that does. */
        fillColumns(rows) {
            this.columns.clear();
            this.asked.clear();
            for (let input = 0; input < this.ports; input += 1) {
                let betterLow = 0;
                let betterHigh = 0;
                for (let level = 0; level < LEVELS; level += 1) {
                    let levelLow = 0;
                    let levelHigh = 0;
                    for (let kind = UNICAST; kind <= MULTICAST; kind += 1) {
                        const place = rows.place(input, kind, level);
                        const low = rows.words[place];
                        const high = rows.words[place + 1];
                        this.ask(input, queueCode(level, kind), low & ~betterLow, high & ~betterHigh);
                        levelLow |= low;
                        levelHigh |= high;
                    }
                    betterLow |= levelLow;
                    betterHigh |= levelHigh;
                }
            }
        }

        ask(input, queue, low, high) {
            this.asked.words[0] |= low;
            this.asked.words[1] |= high;
            const start = queue * this.ports;
            for (let rest = low; rest !== 0; rest &= rest - 1) {
                this.columns.add(start + portSets.lowestBit(rest), input);
            }
            for (let rest = high; rest !== 0; rest &= rest - 1) {
                this.columns.add(start + 32 + portSets.lowestBit(rest), input);
            }
        }

        /** Each free output that is asked grants. */
        grantAll(slot, pointers) {
            this.grants.clear();
            this.granted.clear();
            const preferred = preferredKind(slot);
            for (let word = 0; word < 2; word += 1) {
                const outputs = this.freeOutputs.words[word] & this.asked.words[word];
                for (let rest = outputs; rest !== 0; rest &= rest - 1) {
                    this.grantOf(32 * word + portSets.lowestBit(rest), preferred, pointers);
                }
            }
        }

        /** The inputs that may ask with each level and kind: the free ones and, for multicast, the open ones. */
        findEligible() {
            const free = this.freeInputs.words;
            for (let queue = 0; queue < QUEUES; queue += 1) {
                for (let word = 0; word < 2; word += 1) {
                    const open = (queue & 1) === MULTICAST ? this.open.words[(queue & -2) + word] : 0;
                    this.eligible.words[2 * queue + word] = free[word] | open;
                }
            }
        }

        /** An output takes the best level asked, then the preferred kind, then the rotating choice. */
        grantOf(output, preferred, pointers) {
            const columns = this.columns.words;
            const eligible = this.eligible.words;
            for (let step = 0; step < QUEUES; step += 1) {
                const queue = step ^ preferred;
                const column = 2 * (queue * this.ports + output);
                const low = columns[column] & eligible[2 * queue];
                const high = columns[column + 1] & eligible[2 * queue + 1];
                if ((low | high) !== 0) {
                    const level = queue >> 1;
                    const isUnicast = (queue & 1) === UNICAST;
                    const from = isUnicast ? pointers.grant[level * this.ports + output] : pointers.shared[level];
                    const input = portSets.firstFrom(low, high, from);
                    this.grants.add(queue * this.ports + input, output);
                    this.granted.add(0, input);
                    if (this.round === 0 && isUnicast) {
                        this.firstGrantInputs[output] = input;
                        this.firstGrantLevels[output] = level;
                    }
                    if (this.notes !== null) {
                        this.notes.grant({ output, input, queue, pointer: from, asking: portSets.members(low, high) });
                    }
                    return;
                }
            }
        }

        /** Each granted input accepts; the answer lists the outputs that were matched. */
        acceptAll(slot, rows, pointers) {
            const added = [];
            const preferred = preferredKind(slot);
            for (let word = 0; word < 2; word += 1) {
                for (let rest = this.granted.words[word]; rest !== 0; rest &= rest - 1) {
                    this.acceptOf(32 * word + portSets.lowestBit(rest), preferred, rows, pointers, added);
                }
            }
            return added;
        }

        acceptOf(input, preferred, rows, pointers, added) {
            for (let step = 0; step < QUEUES; step += 1) {
                const queue = step ^ preferred;
                const level = queue >> 1;
                const kind = queue & 1;
                const place = 2 * (queue * this.ports + input);
                const low = this.grants.words[place];
                const high = this.grants.words[place + 1];
                if ((low | high) === 0) {
                    continue;
                }
                const pointer = kind === MULTICAST ? null : pointers.accept[level * this.ports + input];
                const outputs = pointer === null ? portSets.members(low, high) : [portSets.firstFrom(low, high, pointer)];
                if (this.notes !== null) {
                    this.notes.accept({ input, outputs, queue, pointer, granting: portSets.members(low, high) });
                }
                for (const output of outputs) {
                    this.match(input, output, queue);
                    added.push(output);
                }
                if (kind === MULTICAST) {
                    this.goOn(input, level, rows);
                }
                return;
            }
        }

        match(input, output, queue) {
            this.inputs[output] = input;
            this.queues[output] = queue;
            this.freeInputs.remove(0, input);
            this.freeOutputs.remove(0, output);
        }

        /** A matched multicast input goes on asking for the rest of its fan-out, and nothing else. */
        goOn(input, level, rows) {
            const place = rows.place(input, MULTICAST, level);
            this.open.add(level, input);
            this.ask(input, queueCode(level, MULTICAST), rows.words[place], rows.words[place + 1]);
        }
    }

    viewer.preferredKind = preferredKind;
    viewer.Scheduler = Scheduler;
})(globalThis.SlotViewer = globalThis.SlotViewer || {});
