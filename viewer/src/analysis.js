// One pass over all slots of a run: what the time line draws, and whether a journal keeps the rules.
(function (viewer) {
    "use strict";

    const { Pyramid, Checkpoints, SlotWalker, FREE, UNICAST, MULTICAST, LEVELS } = viewer;

    const SLOTS_A_STEP = 16;

    /** What is known of all slots up to `done`. */
    class Analysis {
        /** A journal's matches are compared with those of the scheduler of the name `rule`. */
        constructor(run, rule = "islip") {
            const { ports, slots } = run;
            this.run = run;
            this.rule = rule;
            /** How many slots the pass has covered. */
            this.done = 0;
            this.fed = new Pyramid(slots, 1, "sum", Uint8Array);
            this.inputShares = new Pyramid(slots, ports, "sum", Uint8Array);
            this.outputShares = new Pyramid(slots, ports, "sum", Uint8Array);
            if (run.form === "journal") {
                this.inputWaits = new Pyramid(slots, ports, "max", Uint16Array);
                this.outputWaits = new Pyramid(slots, ports, "max", Uint16Array);
                this.checkpoints = new Checkpoints(run);
                /** By slot whether its match is not that of the rules; and how many such slots there are. */
                this.differences = new Pyramid(slots, 1, "sum", Uint8Array);
                /** The slots in which the match is not that of the rules, in order. */
                this.differing = [];
                /** The first way in which the journal is not lawful, as `tiny_tera check` tells it, or null. */
                this.failure = null;
                /** By level the longest wait of a unicast queue, once the pass is at its end. */
                this.longest = null;
            }
        }
    }

    function noteMatch(analysis, slot, fedBy) {
        const { matches, ports } = analysis.run;
        const start = slot * ports;
        fedBy.fill(0);
        for (let output = 0; output < ports; output += 1) {
            const input = matches.inputs[start + output];
            if (input !== FREE) {
                analysis.outputShares.set(slot, output, 1);
                fedBy[input] = 1;
            }
        }
        for (let input = 0; input < ports; input += 1) {
            analysis.inputShares.set(slot, input, fedBy[input]);
        }
        analysis.fed.set(slot, 0, matches.count(slot));
    }

    function noteWaits(analysis, slot, waits) {
        for (let port = 0; port < analysis.run.ports; port += 1) {
            analysis.inputWaits.set(slot, port, waits.ofInput(slot, port));
            analysis.outputWaits.set(slot, port, waits.ofOutput(slot, port));
        }
    }

    /** Whether an input's row keeps what the slot before did not serve of its row there. */
    function keeps(walker, input) {
        const now = walker.rows.words;
        const before = walker.rowsBefore.words;
        const served = walker.servedBefore.words;
        for (let level = 0; level < LEVELS; level += 1) {
            const unicast = walker.rows.place(input, UNICAST, level);
            const multicast = walker.rows.place(input, MULTICAST, level);
            const restLow = before[multicast] & ~served[multicast];
            const restHigh = before[multicast + 1] & ~served[multicast + 1];
            const isLost = (before[unicast] & ~served[unicast] & ~now[unicast]) !== 0
                || (before[unicast + 1] & ~served[unicast + 1] & ~now[unicast + 1]) !== 0;
            const isChanged = (restLow | restHigh) !== 0
                && (restLow !== now[multicast] || restHigh !== now[multicast + 1]);
            if (isLost || isChanged) {
                return false;
            }
        }
        return true;
    }

    function isRowEmpty(rows, input) {
        const start = rows.place(input, UNICAST, 0);
        for (let place = start; place < start + 4 * LEVELS; place += 1) {
            if (rows.words[place] !== 0) {
                return false;
            }
        }
        return true;
    }

    /** The least input for which a test holds, or -1. */
    function firstInput(ports, test) {
        for (let input = 0; input < ports; input += 1) {
            if (test(input)) {
                return input;
            }
        }
        return -1;
    }

    /** The first way in which a slot is not lawful, or null. */
    function failureOf(walker, differing) {
        const { rows, rowsBefore, ports, slot } = walker;
        if (slot > 0 && !rowsBefore.more.includes(1)) {
            return "after end";
        }
        const silent = firstInput(ports, (input) => !rows.more[input] && !isRowEmpty(rows, input));
        if (silent >= 0) {
            return `more of card ${silent}`;
        }
        const forgetful = slot > 0 ? firstInput(ports, (input) => !keeps(walker, input)) : -1;
        if (forgetful >= 0) {
            return `keeps of card ${forgetful}`;
        }
        return differing.length > 0 ? `output ${differing[0]}` : null;
    }

    function noteRules(analysis, walker) {
        const { slot, rows } = walker;
        const differing = walker.differingOutputs();
        if (differing.length > 0) {
            analysis.differences.set(slot, 0, 1);
            analysis.differing.push(slot);
        }
        if (analysis.failure === null) {
            let reason = failureOf(walker, differing);
            if (reason === null && slot + 1 === analysis.run.slots && rows.more.includes(1)) {
                reason = "no end";
            }
            analysis.failure = reason === null ? null : { slot, reason };
        }
    }

    /** A generator that fills an analysis slot by slot; it yields its progress. */
    function* analyse(analysis) {
        const { run } = analysis;
        const walker = run.form === "journal" ? new SlotWalker(run, analysis.checkpoints, analysis.rule) : null;
        const fedBy = new Uint8Array(run.ports);
        for (let slot = 0; slot < run.slots; slot += 1) {
            noteMatch(analysis, slot, fedBy);
            if (walker !== null) {
                analysis.checkpoints.keep(slot, walker);
                walker.step();
                noteRules(analysis, walker);
                noteWaits(analysis, slot, walker.waits);
            }
            analysis.done = slot + 1;
            if (slot % SLOTS_A_STEP === 0) {
                yield slot / run.slots;
            }
        }
        if (walker !== null) {
            analysis.longest = walker.waits.longest(run.slots - 1);
        }
    }

    viewer.Analysis = Analysis;
    viewer.analyse = analyse;
})(globalThis.SlotViewer = globalThis.SlotViewer || {});
