// What the rounds of a slot of the playground grant and accept, found by calls of the scheduler that decided it.
(function (viewer) {
    "use strict";

    const { Rows, Pointers, UNICAST, FREE, makeScheduler } = viewer;

    /** Decides slots from one slot's pointers, which stay as they are. */
    class Trials {
        constructor({ module, ports, rule }, { slot, before }) {
            Object.assign(this, { module, ports, rule, slot, before });
            this.pointers = new Pointers(ports);
            this.once = makeScheduler(module, ports, 1, rule);
        }

        /** The match of the rows after so many rounds. */
        match(rows, rounds) {
            const made = rounds === 1 ? this.once : makeScheduler(this.module, this.ports, rounds, this.rule);
            this.pointers.copyFrom(this.before);
            made.decide(this.slot, rows, this.pointers);
            return made.inputs.slice();
        }
    }

    /** By output the inputs that ask it. */
    function columnsOf({ ports }, { cells }) {
        return Array.from({ length: ports }, (_, output) => {
            return Array.from({ length: ports }, (__, input) => input).filter((input) => cells[input * ports + output] > 0);
        });
    }

    /** A generator of what the free outputs grant. One that is asked alone, by the free inputs, feeds from the input that it grants. */
    function* grantsOf(trials, columns, matched) {
        const isFree = (input) => !matched.includes(input);
        const alone = new Rows(trials.ports);
        const grants = [];
        for (let output = 0; output < trials.ports; output += 1) {
            const asking = matched[output] === FREE ? columns[output].filter(isFree) : [];
            if (asking.length > 0) {
                alone.words.fill(0);
                asking.forEach((input) => {
                    alone.words[alone.place(input, UNICAST, 0) + (output >> 5)] = 1 << (output & 31);
                });
                grants.push({ input: trials.match(alone, 1)[output], output });
                yield;
            }
        }
        return grants;
    }

    /**
     * A generator that returns what each round of a slot granted and accepted, up to the last that added a pair. The match
     * after a round is that of a slot with so many rounds.
     */
    function* findRounds(model, done) {
        const trials = new Trials(model, done);
        const columns = columnsOf(model, done);
        const rows = model.rowsOf(done.cells);
        const found = [];
        let matched = new Uint8Array(model.ports).fill(FREE);
        for (let round = 1; round <= done.used; round += 1) {
            const inputs = trials.match(rows, round);
            const free = matched;
            const accepts = viewer.pairsOfInputs(inputs).filter(({ output }) => free[output] === FREE);
            found.push({ grants: yield* grantsOf(trials, columns, matched), accepts });
            matched = inputs;
        }
        return found;
    }

    viewer.findRounds = findRounds;
})(globalThis.SlotViewer = globalThis.SlotViewer || {});
