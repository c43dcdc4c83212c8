// The rotating pointers, and how a slot moves them under each of the three schedulers.
// The rules are those of docs/SWITCH.md.
(function (viewer) {
    "use strict";

    const { portSets, UNICAST, MULTICAST, LEVELS, FREE, queueCode } = viewer;

    /** The schedulers, which differ in where a grant pointer goes after a grant of the first round. */
    const SCHEDULERS = [
        { name: "islip", title: "iSLIP" },
        { name: "firm", title: "FIRM" },
        { name: "rrm", title: "RRM" },
    ];

    /** The rotating pointers of all outputs and inputs, and the shared ones of multicast. */
    class Pointers {
        constructor(ports) {
            this.ports = ports;
            /** By level and output: the input from which a unicast grant is chosen. */
            this.grant = new Uint8Array(LEVELS * ports);
            /** By level and input: the output from which a unicast accept is chosen. */
            this.accept = new Uint8Array(LEVELS * ports);
            /** By level: the input from which all outputs choose a multicast grant. */
            this.shared = new Uint8Array(LEVELS);
        }

        copyFrom(other) {
            this.grant.set(other.grant);
            this.accept.set(other.accept);
            this.shared.set(other.shared);
        }
    }

    /** Where a grant pointer that was at `from` goes after a unicast grant of the first round to `input`. */
    function grantPointerAfter(rule, isAccepted, from, input, ports) {
        if (isAccepted || rule === "rrm") {
            return (input + 1) % ports;
        }
        return rule === "firm" ? input : from;
    }

    /** The pointer of an output that granted unicast in the first round, and that of the input if it accepted. */
    function moveOfGrant(made, output, pointers, note) {
        const { ports } = made;
        const input = made.firstGrantInputs[output];
        const level = made.firstGrantLevels[output];
        const isAccepted = made.inputs[output] === input && made.queues[output] === queueCode(level, UNICAST);
        const place = level * ports + output;
        const from = pointers.grant[place];
        const to = grantPointerAfter(made.rule, isAccepted, from, input, ports);
        pointers.grant[place] = to;
        note({ side: "grant", port: output, level, from, to, partner: input, isAccepted });
        if (isAccepted) {
            const acceptPlace = level * ports + input;
            const acceptFrom = pointers.accept[acceptPlace];
            const acceptTo = (output + 1) % ports;
            pointers.accept[acceptPlace] = acceptTo;
            note({ side: "accept", port: input, level, from: acceptFrom, to: acceptTo, partner: output, isAccepted });
        }
    }

    /** The first input from the shared pointer on that posted a multicast head of the level, or -1. */
    function firstHead(level, rows, pointers) {
        for (let step = 0; step < pointers.ports; step += 1) {
            const input = (pointers.shared[level] + step) % pointers.ports;
            const place = rows.place(input, MULTICAST, level);
            if ((rows.words[place] | rows.words[place + 1]) !== 0) {
                return input;
            }
        }
        return -1;
    }

    /** Whether all of an input's multicast set of a level was matched to it with that level and kind. */
    function isServedWhole(made, input, level, rows) {
        const place = rows.place(input, MULTICAST, level);
        const queue = queueCode(level, MULTICAST);
        return portSets.members(rows.words[place], rows.words[place + 1]).every(
            (output) => made.inputs[output] === input && made.queues[output] === queue,
        );
    }

    function moveShared(made, level, rows, pointers, note) {
        const head = firstHead(level, rows, pointers);
        if (head < 0) {
            return;
        }
        const from = pointers.shared[level];
        const isAccepted = isServedWhole(made, head, level, rows);
        const to = isAccepted ? (head + 1) % made.ports : from;
        pointers.shared[level] = to;
        note({ side: "shared", port: null, level, from, to, partner: head, isAccepted });
    }

    /**
     * Moves the pointers as the decided slot moves them. `note` is told each pointer that a grant, an
     * accept or a head is about, also one that stays.
     */
    function movePointers(made, rows, pointers, note) {
        for (let output = 0; output < made.ports; output += 1) {
            if (made.firstGrantInputs[output] !== FREE) {
                moveOfGrant(made, output, pointers, note);
            }
        }
        for (let level = 0; level < LEVELS; level += 1) {
            moveShared(made, level, rows, pointers, note);
        }
    }

    function schedulerTitle(name) {
        return SCHEDULERS.find((one) => one.name === name).title;
    }

    viewer.SCHEDULERS = SCHEDULERS;
    viewer.Pointers = Pointers;
    viewer.movePointers = movePointers;
    viewer.schedulerTitle = schedulerTitle;
})(globalThis.SlotViewer = globalThis.SlotViewer || {});
