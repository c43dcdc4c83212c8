// Who decides the slots of a journal: the proved scheduler where the browser runs it, and else a script.
(function (viewer) {
    "use strict";

    /** What loadModule() gave; null before that, and where the browser does not run the module. */
    viewer.provedModule = null;

    /** A scheduler of this rule, of which a slot's match, numbers and pointers are taken. */
    function makeDecider(ports, rounds, rule) {
        return viewer.makeScheduler(viewer.provedModule, ports, rounds, rule);
    }

    /** Who decides the slots of this rule, in a sentence. */
    function decidedBy(rule) {
        if (viewer.isProved(viewer.provedModule, rule)) {
            return "Each slot is decided by the proved scheduler.";
        }
        return "Each slot is decided by a script, not proved: this browser does not run the proved scheduler, which needs "
            + "64-bit WebAssembly memory.";
    }

    /** Who decides the slot, and whether the steps that a script tells end in the same match, in sentences. */
    function decidedHere(rule, steps) {
        if (steps.length === 0 || !viewer.isProved(viewer.provedModule, rule)) {
            return decidedBy(rule);
        }
        return steps[steps.length - 1].isSame
            ? `${decidedBy(rule)} Its steps are told by a script, which makes the same match.`
            : `${decidedBy(rule)} Its steps are told by a script, which makes another match: one of the two is wrong.`;
    }

    viewer.makeDecider = makeDecider;
    viewer.decidedHere = decidedHere;
})(globalThis.SlotViewer = globalThis.SlotViewer || {});
