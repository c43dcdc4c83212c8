// The steps of a slot: request, grant and accept, round by round, and then the pointers.
(function (viewer) {
    "use strict";

    const { portSets, Pointers, Scheduler, UNICAST, LEVELS } = viewer;

    const PHASES = ["request", "grant", "accept"];
    /** The step after all rounds. */
    const LAST_STEP = "pointers";
    const STEP_FORM = /^(?:(request|grant|accept)([2-9]|[1-5]\d|6[0-4])?|pointers)$/;

    /** What a scheduler did in a slot, as it tells it. */
    class SlotNotes {
        constructor() {
            this.rounds = [];
            this.moves = [];
        }

        beginRound(made, round) {
            this.rounds.push({ round, requests: requestsOf(made), matched: pairsOf(made), grants: [], accepts: [] });
        }

        grant(grant) {
            this.rounds[this.rounds.length - 1].grants.push(withQueue(grant));
        }

        accept(accept) {
            this.rounds[this.rounds.length - 1].accepts.push(withQueue(accept));
        }

        move(move) {
            this.moves.push(move);
        }
    }

    function withQueue(one) {
        return { ...one, level: one.queue >> 1, kind: one.queue & 1 };
    }

    /** What is asked in the round that begins, by rising input, then level and kind, then output. */
    function requestsOf(made) {
        const { ports, columns, eligible, inputs } = made;
        const found = [];
        for (let queue = 0; queue < 2 * LEVELS; queue += 1) {
            for (let output = 0; output < ports; output += 1) {
                const place = 2 * (queue * ports + output);
                const low = columns.words[place] & eligible.words[2 * queue];
                const high = columns.words[place + 1] & eligible.words[2 * queue + 1];
                for (const input of portSets.members(low, high)) {
                    found.push(withQueue({ input, output, queue, isFree: inputs[output] === viewer.FREE }));
                }
            }
        }
        const isOpen = (input) => inputs.includes(input);
        return found.filter((one) => one.isFree || !isOpen(one.input)).sort((a, b) => a.input - b.input);
    }

    /** The pairs that are matched so far, by rising output. */
    function pairsOf(made) {
        const found = [];
        made.inputs.forEach((input, output) => {
            if (input !== viewer.FREE) {
                found.push(withQueue({ input, output, queue: made.queues[output] }));
            }
        });
        return found;
    }

    function stepName(phase, round) {
        return round === 0 ? phase : `${phase}${round + 1}`;
    }

    /** Where a step stands among all: a greater number is later. */
    function stepOrder(name) {
        const found = STEP_FORM.exec(name);
        if (name === LAST_STEP || found === null) {
            return Number.MAX_SAFE_INTEGER;
        }
        const round = found[2] === undefined ? 0 : Number(found[2]) - 1;
        return round * PHASES.length + PHASES.indexOf(found[1]);
    }

    function isStepName(name) {
        return STEP_FORM.test(name);
    }

    /** The grants of a round that were not accepted, each with its input's accept. */
    function refusedOf({ grants, accepts }) {
        return grants.map((grant) => ({ ...grant, accept: accepts.find(({ input }) => input === grant.input) }))
            .filter(({ accept, queue, output }) => accept.queue !== queue || !accept.outputs.includes(output));
    }

    /** The steps of a round; one that adds nothing has no accepts. */
    function stepsOfRound(noted) {
        const isIdle = noted.grants.length === 0;
        const refused = refusedOf(noted);
        return PHASES.filter((phase) => !(isIdle && phase === "accept"))
            .map((phase) => ({ ...noted, name: stepName(phase, noted.round), phase, refused }));
    }

    /**
     * The steps of the slot at which a walker of a journal stands, by the walker's scheduler: what is
     * asked, granted and accepted in each round, up to the first that adds nothing, and which pointers move.
     */
    function stepsOf(walker) {
        const { ports, journal, scheduler } = walker;
        const made = new Scheduler(ports, journal.rounds, scheduler.rule);
        const after = new Pointers(ports);
        const notes = new SlotNotes();
        made.notes = notes;
        after.copyFrom(walker.pointers);
        made.decide(walker.slot, walker.rows, after);
        const last = { name: LAST_STEP, phase: LAST_STEP, round: null, rule: made.rule, matched: pairsOf(made), moves: notes.moves, after };
        last.later = laterPairs(notes.rounds, last.matched);
        last.isSame = isSameMatch(made, scheduler);
        return notes.rounds.flatMap(stepsOfRound).concat(last);
    }

    /** Whether two schedulers decided the same match. */
    function isSameMatch(one, other) {
        return one.inputs.every((input, output) => input === other.inputs[output] && one.queues[output] === other.queues[output]);
    }

    /** The pairs that rounds after the first added. */
    function laterPairs(rounds, matched) {
        const isOfFirst = (pair) => rounds[0].accepts.some(
            ({ input, queue, outputs }) => input === pair.input && queue === pair.queue && outputs.includes(pair.output),
        );
        return matched.filter((pair) => pair.kind === UNICAST && !isOfFirst(pair));
    }

    viewer.LAST_STEP = LAST_STEP;
    viewer.stepsOf = stepsOf;
    viewer.stepOrder = stepOrder;
    viewer.isStepName = isStepName;
})(globalThis.SlotViewer = globalThis.SlotViewer || {});
