// A switch with one level of unicast whose requests are set by hand: what is asked, and what each slot does with it.
(function (viewer) {
    "use strict";

    const { Rows, Pointers, ArrivalSlots, MadeTraffic, UNICAST, FREE, MAX_PORTS, MAX_ROUNDS, makeScheduler } = viewer;

    /** So many slots are kept at most, and so many cells in a queue. */
    const MOST_SLOTS = 2000;
    const MOST_CELLS = 9999;

    /** What a queue does when it is served: it never runs empty, or it gives one of its cells. */
    const QUEUES = [
        { name: "endless", title: "never run empty" },
        { name: "cells", title: "hold cells" },
    ];

    const NO_SCRIPT = { lines: [], again: null };
    /** What was counted before slot 0. */
    const NO_SUMS = { arrived: 0, dropped: 0, departed: 0, waiting: 0, delays: 0 };

    function clamp(number, most) {
        return Math.min(most, Math.max(1, Math.trunc(number) || 1));
    }

    function pointersOf(ports, { grant, accept }) {
        const pointers = new Pointers(ports);
        pointers.grant.set(grant);
        pointers.accept.set(accept);
        return pointers;
    }

    class Playground {
        /**
         * `module` is what loadModule() gave. The settings: ports, rounds, the name `rule` of a scheduler, the name `queues` of
         * what a queue does, the pointers `begin` of level 0 before slot 0, and `script`: the requests of the first slots, each a
         * list of places, and the line from which they come again, or null. `traffic` is null, or the made traffic, as MadeTraffic
         * takes it, with the `depth` of the queues, which then hold cells.
         */
        constructor(module, { ports = 4, rounds = 1, rule = "islip", queues = "endless", begin = null, script = NO_SCRIPT, traffic = null } = {}) {
            this.module = module;
            this.ports = clamp(ports, MAX_PORTS);
            this.rounds = clamp(rounds, MAX_ROUNDS);
            this.rule = rule;
            this.queues = traffic === null ? queues : "cells";
            const zeros = new Array(this.ports).fill(0);
            this.begin = begin === null ? { grant: zeros, accept: zeros } : begin;
            this.script = script;
            this.traffic = traffic;
            this.made = traffic === null ? null : new MadeTraffic(traffic, this.ports);
            this.scheduler = makeScheduler(module, this.ports, this.rounds, rule);
            this.pointers = pointersOf(this.ports, this.begin);
            /** What each slot did, as step() answers it. */
            this.history = [];
            /** By place the cells that wait before the next slot; of a queue that never runs empty 1, if it asks. */
            this.cells = new Uint16Array(this.ports * this.ports);
            /** When these cells came, where queues hold cells. */
            this.arrivals = new ArrivalSlots(this.cells.length);
            this.beginSlot();
        }

        /** One with other settings and no slots. */
        like(changes) {
            const { ports, rounds, rule, queues, begin, script, traffic } = this;
            return new Playground(this.module, { ports, rounds, rule, queues, begin, script, traffic, ...changes });
        }

        get slot() {
            return this.history.length;
        }

        /** The slot that was decided last, or null. */
        get last() {
            return this.history.length === 0 ? null : this.history[this.history.length - 1];
        }

        get isFull() {
            return this.history.length >= MOST_SLOTS;
        }

        get isCounted() {
            return this.queues === "cells";
        }

        /** So many cells fit in a queue. */
        get mostCells() {
            if (!this.isCounted) {
                return 1;
            }
            return this.traffic === null ? MOST_CELLS : this.traffic.depth;
        }

        /** What was counted up to the slot that was decided last: cells that came, found no room, left and wait, and the sum of delays. */
        get sums() {
            return this.last === null ? NO_SUMS : this.last.sums;
        }

        place(input, output) {
            return input * this.ports + output;
        }

        asks(input, output) {
            return this.cells[this.place(input, output)] > 0;
        }

        /** For how many slots in a row, up to the last one, a queue that asks has waited. */
        waited(place) {
            return this.last === null || this.cells[place] === 0 ? 0 : this.last.waits[place];
        }

        /** The line of the script for a slot, or null. */
        lineOf(slot) {
            const { lines, again } = this.script;
            if (slot < lines.length) {
                return lines[slot];
            }
            return again === null ? null : lines[again + (slot - again) % (lines.length - again)];
        }

        /** Begins the next slot: what its line of the script asks, and what the traffic brings. Cells come on top of those that wait. */
        beginSlot() {
            const line = this.lineOf(this.slot);
            /** By place what was changed by hand since. */
            this.edits = new Map();
            /** How many cells found their queue full. */
            this.dropped = 0;
            if (line !== null && !this.isCounted) {
                this.cells.fill(0);
            }
            (line || []).concat(this.coming()).forEach((place) => this.enter(place));
        }

        /** The places that made cells come to in the next slot. */
        coming() {
            const outputs = this.made === null ? [] : this.made.coming(this.slot);
            return outputs.flatMap((output, input) => (output === null ? [] : [this.place(input, output)]));
        }

        /** A cell comes, and is dropped where its queue is full. */
        enter(place) {
            if (this.cells[place] === this.mostCells) {
                this.dropped += 1;
                return;
            }
            this.cells[place] += 1;
            if (this.isCounted) {
                this.arrivals.enter(place, this.slot);
            }
        }

        /** Adds cells to a queue, or takes some; for a queue that never runs empty it is asked, or not. */
        change(place, by) {
            const made = Math.max(0, Math.min(this.mostCells, this.cells[place] + by)) - this.cells[place];
            const edit = (this.edits.get(place) || 0) + made;
            this.cells[place] += made;
            if (this.isCounted) {
                this.arrivals.edit(place, edit, this.slot);
            }
            if (edit === 0) {
                this.edits.delete(place);
            } else {
                this.edits.set(place, edit);
            }
        }

        /** What a click does: it turns a request, or puts a cell into the queue; `isLess` takes one. */
        click(input, output, isLess = false) {
            const place = this.place(input, output);
            const isAsked = this.cells[place] > 0;
            this.change(place, isLess || (!this.isCounted && isAsked) ? -1 : 1);
        }

        /** Asks for the places that `isAsked` names, and for no others; where queues hold cells each of them gets one. */
        ask(isAsked) {
            for (let place = 0; place < this.cells.length; place += 1) {
                const more = isAsked(Math.floor(place / this.ports), place % this.ports) ? 1 : 0;
                this.change(place, this.isCounted ? more : more - this.cells[place]);
            }
        }

        clear() {
            this.cells.forEach((count, place) => this.change(place, -count));
        }

        /** The rows of what is asked. */
        rowsOf(cells) {
            const rows = new Rows(this.ports);
            for (let input = 0; input < this.ports; input += 1) {
                const start = rows.place(input, UNICAST, 0);
                for (let output = 0; output < this.ports; output += 1) {
                    if (cells[this.place(input, output)] > 0) {
                        rows.words[start + (output >> 5)] |= 1 << (output & 31);
                    }
                }
            }
            return rows;
        }

        /** Decides the next slot. What its rounds grant and accept is found by viewer.findRounds(), where it is asked for. */
        step() {
            const { scheduler, cells, slot, edits, dropped } = this;
            const after = new Pointers(this.ports);
            after.copyFrom(this.pointers);
            scheduler.decide(slot, this.rowsOf(cells), after);
            const inputs = scheduler.inputs.slice();
            const done = {
                slot,
                cells,
                edits,
                dropped,
                inputs,
                used: scheduler.used,
                rounds: null,
                count: inputs.filter((input) => input !== FREE).length,
                waits: this.waitsAfter(inputs),
                before: this.pointers,
                after,
                notes: this.arrivals.mark(),
            };
            this.pointers = after;
            this.cells = this.cellsAfter(done);
            done.sums = this.sumsAfter(done);
            this.history.push(done);
            this.beginSlot();
            return done;
        }

        waitsAfter(inputs) {
            return this.cells.map((count, place) => {
                const isServed = inputs[place % this.ports] === Math.floor(place / this.ports);
                return count === 0 || isServed ? 0 : this.waited(place) + 1;
            });
        }

        cellsAfter({ cells, inputs }) {
            const left = cells.slice();
            if (this.isCounted) {
                pairs(inputs).forEach(({ input, output }) => {
                    left[this.place(input, output)] -= 1;
                });
            }
            return left;
        }

        /** What was counted up to a slot whose cells have left, where queues hold cells. A cell crosses in the slot after the one that serves it. */
        sumsAfter({ slot, inputs, dropped, count }) {
            if (!this.isCounted) {
                return NO_SUMS;
            }
            const delays = pairs(inputs).map(({ input, output }) => slot + 1 - this.arrivals.serve(this.place(input, output)));
            const sums = { ...this.sums };
            sums.dropped += dropped;
            sums.departed += count;
            sums.delays += delays.reduce((sum, delay) => sum + delay, 0);
            sums.waiting = this.cells.reduce((sum, cells) => sum + cells, 0);
            sums.arrived = sums.dropped + sums.departed + sums.waiting;
            return sums;
        }

        /** Goes back to before the slot that was decided last, with what was asked in it. */
        back() {
            const { cells, edits, dropped, before, notes } = this.history.pop();
            this.arrivals.back(notes, this.last && this.last.notes);
            Object.assign(this, { cells, edits, dropped, pointers: before });
        }

        /** A generator that decides slots with what was changed by hand before each, and then makes the last of these changes. */
        * replay(edits) {
            for (const [slot, changes] of edits.entries()) {
                changes.forEach((by, place) => this.change(place, by));
                if (slot < edits.length - 1) {
                    this.step();
                    yield slot / edits.length;
                }
            }
            return this;
        }

        /** What was changed by hand before each slot, the next one too. */
        allEdits() {
            return this.history.map(({ edits }) => edits).concat(this.edits);
        }
    }

    /** The pairs of a match, by rising output. */
    function pairs(inputs) {
        return Array.from(inputs, (input, output) => ({ input, output })).filter(({ input }) => input !== FREE);
    }

    Object.assign(viewer, { QUEUES, MOST_SLOTS, NO_SCRIPT, pairsOfInputs: pairs, Playground });
})(globalThis.SlotViewer = globalThis.SlotViewer || {});
