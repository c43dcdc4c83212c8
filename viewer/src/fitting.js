// Which of the schedulers makes the matches of a journal; the file does not say, so the pass over its slots finds it.
(function (viewer) {
    "use strict";

    const { Rows, Pointers, FREE } = viewer;

    const SLOTS_A_STEP = 16;

    /** Whether a slot's match in the journal is the one that was decided. */
    function isMatch(matches, slot, made) {
        const start = slot * matches.ports;
        for (let output = 0; output < matches.ports; output += 1) {
            const isSame = matches.inputs[start + output] === made.inputs[output]
                && (made.inputs[output] === FREE || matches.queues[start + output] === made.queues[output]);
            if (!isSame) {
                return false;
            }
        }
        return true;
    }

    /** A generator that returns whether each match of a journal is that of the scheduler of this name. */
    function* fits(journal, rule) {
        const rows = new Rows(journal.ports);
        const pointers = new Pointers(journal.ports);
        const made = viewer.makeDecider(journal.ports, journal.rounds, rule);
        for (let slot = 0; slot < journal.slots; slot += 1) {
            journal.readRows(slot, rows);
            made.decide(slot, rows, pointers);
            if (!isMatch(journal.matches, slot, made)) {
                return false;
            }
            if (slot % SLOTS_A_STEP === 0) {
                yield slot / journal.slots;
            }
        }
        return true;
    }

    /** A generator that returns the names of the schedulers, other than `rule`, that a journal's matches are of. */
    function* findFitting(journal, rule) {
        const found = [];
        for (const { name } of viewer.SCHEDULERS) {
            if (name !== rule && (yield* fits(journal, name))) {
                found.push(name);
            }
        }
        return found;
    }

    /**
     * A generator that fills the analysis of a journal, and at the first match that is not its scheduler's finds the other
     * schedulers that make all matches. It returns their names: null where there was no need to look for them. With `isOpen`
     * it ends there where it finds one.
     */
    function* analyseFitting(analysis, isOpen) {
        const pass = viewer.analyse(analysis);
        let found = null;
        for (let step = { done: false }; !step.done;) {
            step = pass.next();
            if (found === null && analysis.run.form === "journal" && analysis.differing.length > 0) {
                found = yield* findFitting(analysis.run, analysis.rule);
                if (isOpen && found.length > 0) {
                    break;
                }
            }
            yield analysis.done / analysis.run.slots;
        }
        return found;
    }

    viewer.analyseFitting = analyseFitting;
})(globalThis.SlotViewer = globalThis.SlotViewer || {});
