// Requests that can be loaded in the playground, and pseudo-random numbers that a seed repeats.
(function (viewer) {
    "use strict";

    const WORD = 2 ** 32;

    /** Numbers from 0 up to 1, not 1, that are the same for the same seed (mulberry32). */
    function randomNumbers(seed) {
        let state = seed >>> 0;
        return () => {
            state = (state + 0x6d2b79f5) >>> 0;
            let word = Math.imul(state ^ (state >>> 15), state | 1);
            word ^= word + Math.imul(word ^ (word >>> 7), word | 61);
            return ((word ^ (word >>> 14)) >>> 0) / WORD;
        };
    }

    /** For each pattern what answers, place by place, whether it is asked. */
    const PATTERNS = {
        full: { title: "all queues", make: () => () => true },
        diagonal: { title: "diagonal", make: () => (input, output) => input === output },
        hot: { title: "one hot output", make: () => (input, output) => output === 0 },
        random: {
            title: "random",
            make: ({ seed, share }) => {
                const next = randomNumbers(seed);
                return () => next() < share / 100;
            },
        },
        none: { title: "none", make: () => () => false },
    };

    /** Loads a pattern, whose requests are then all that there is where queues never run empty, and else come on top. */
    function loadPattern(model, { name, seed, share }) {
        if (name === "none") {
            model.clear();
        } else {
            model.ask(PATTERNS[name].make({ seed, share }));
        }
    }

    Object.assign(viewer, { PATTERNS, loadPattern, randomNumbers });
})(globalThis.SlotViewer = globalThis.SlotViewer || {});
