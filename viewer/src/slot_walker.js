// Walks through the slots of a journal and keeps what its bytes do not hold: the pointers, the
// match by the rules, and the waits.
(function (viewer) {
    "use strict";

    const { Rows, Pointers, Waits, FREE } = viewer;

    const CHECKPOINT_BYTES = 32 * 1024 * 1024;
    const LEAST_SPACING = 64;

    /** States of a walk at every so many slots, from which a later walk can start. */
    class Checkpoints {
        constructor(journal) {
            const bytesOfOne = 16 * journal.ports * journal.ports;
            this.spacing = Math.max(LEAST_SPACING, Math.ceil(journal.slots * bytesOfOne / CHECKPOINT_BYTES));
            this.states = [];
        }

        /** Keeps the state before a slot where one is due there. */
        keep(slot, walker) {
            if (slot % this.spacing === 0 && this.states.length === slot / this.spacing) {
                const state = { pointers: new Pointers(walker.ports), waits: new Waits(walker.ports) };
                state.pointers.copyFrom(walker.pointersAfter);
                state.waits.copyFrom(walker.waits);
                this.states.push(state);
            }
        }
    }

    /** Fills `served` with the outputs that a match serves each input with, by kind and level. */
    function readServed(matches, slot, served) {
        const start = slot * matches.ports;
        served.words.fill(0);
        for (let output = 0; output < matches.ports; output += 1) {
            const input = matches.inputs[start + output];
            if (input !== FREE) {
                const queue = matches.queues[start + output];
                const place = served.place(input, queue & 1, queue >> 1);
                served.words[place + (output >> 5)] |= 1 << (output & 31);
            }
        }
    }

    class SlotWalker {
        /** `rule` is the name of the scheduler by which the slots are decided. */
        constructor(journal, checkpoints, rule = "islip") {
            this.journal = journal;
            this.checkpoints = checkpoints;
            this.ports = journal.ports;
            /** The slot that was walked last; -1 before slot 0. */
            this.slot = -1;
            this.rows = new Rows(this.ports);
            this.rowsBefore = new Rows(this.ports);
            /** What the journal's match of this slot, and of the slot before, served of the rows. */
            this.served = new Rows(this.ports);
            this.servedBefore = new Rows(this.ports);
            /** The pointers from which the slot was decided, and those that it left. */
            this.pointers = new Pointers(this.ports);
            this.pointersAfter = new Pointers(this.ports);
            /** Its match and its numbers of rounds are those of the rules for this slot. */
            this.scheduler = viewer.makeDecider(this.ports, journal.rounds, rule);
            this.waits = new Waits(this.ports);
        }

        /** Goes on by one slot. */
        step() {
            this.slot += 1;
            [this.rows, this.rowsBefore] = [this.rowsBefore, this.rows];
            [this.served, this.servedBefore] = [this.servedBefore, this.served];
            this.journal.readRows(this.slot, this.rows);
            readServed(this.journal.matches, this.slot, this.served);
            this.pointers.copyFrom(this.pointersAfter);
            this.scheduler.decide(this.slot, this.rows, this.pointersAfter);
            this.waits.advance(this.slot, this.rows, this.rowsBefore, this.served);
        }

        /** Goes to a slot; false where the checkpoints do not reach it yet. */
        seek(slot) {
            const { spacing, states } = this.checkpoints;
            const wanted = Math.floor(slot / spacing);
            if (this.slot > slot || this.slot < wanted * spacing - 1) {
                if (wanted >= states.length) {
                    return false;
                }
                this.restore(wanted * spacing, states[wanted]);
            }
            while (this.slot < slot) {
                this.step();
            }
            return true;
        }

        /** Goes to before a slot. */
        restore(slot, state) {
            this.slot = slot - 1;
            this.pointersAfter.copyFrom(state.pointers);
            this.waits.copyFrom(state.waits);
            if (slot > 0) {
                this.journal.readRows(slot - 1, this.rows);
                readServed(this.journal.matches, slot - 1, this.served);
            } else {
                this.rows.words.fill(0);
                this.served.words.fill(0);
            }
        }

        /** The outputs whose entry in the journal is not that of the rules, in rising order. */
        differingOutputs() {
            const { inputs, queues } = this.journal.matches;
            const start = this.slot * this.ports;
            const found = [];
            for (let output = 0; output < this.ports; output += 1) {
                if (inputs[start + output] !== this.scheduler.inputs[output]
                    || queues[start + output] !== this.scheduler.queues[output]) {
                    found.push(output);
                }
            }
            return found;
        }
    }

    viewer.Checkpoints = Checkpoints;
    viewer.SlotWalker = SlotWalker;
})(globalThis.SlotViewer = globalThis.SlotViewer || {});
