// The steps of a slot in sentences.
(function (viewer) {
    "use strict";

    const { KIND_NAMES, MULTICAST, plural } = viewer;

    /** "0", "0 and 2", "0, 1 and 2". */
    function listed(ports) {
        return ports.length < 2 ? ports.join("") : `${ports.slice(0, -1).join(", ")} and ${ports[ports.length - 1]}`;
    }

    function named(noun, ports) {
        return `${noun}${ports.length === 1 ? "" : "s"} ${listed(ports)}`;
    }

    function queueText({ level, kind }) {
        return `level ${level}, ${KIND_NAMES[kind]}`;
    }

    /** What one input asks, as one sentence. */
    function requestLine(input, requests, matched) {
        const served = matched.find((pair) => pair.input === input);
        if (served !== undefined) {
            const outputs = requests.map((one) => one.output);
            return `input ${input}, matched as multicast of level ${served.level}, asks for the rest of its fan-out: ${named("output", outputs)}`;
        }
        const parts = [...new Set(requests.map((one) => one.queue))].map((queue) => {
            const some = requests.filter((one) => one.queue === queue);
            return `${named("output", some.map((one) => one.output))} (${queueText(some[0])})`;
        });
        const taken = [...new Set(requests.filter((one) => !one.isFree).map((one) => one.output))];
        const rest = taken.length === 0 ? "" : `; ${named("output", taken)} ${taken.length === 1 ? "is" : "are"} matched already`;
        return `input ${input} asks ${parts.join(" and ")}${rest}`;
    }

    function requestLines({ requests, matched }) {
        const inputs = [...new Set(requests.map((one) => one.input))];
        return inputs.map((input) => requestLine(input, requests.filter((one) => one.input === input), matched));
    }

    function grantLine({ output, input, level, kind, pointer, asking }) {
        const from = kind === MULTICAST ? `the shared multicast pointer ${pointer}` : `its pointer ${pointer}`;
        const others = `${named("input", asking)} ask${asking.length === 1 ? "s" : ""}`;
        return `output ${output} grants input ${input}: the first asking input from ${from} (${queueText({ level, kind })}; ${others})`;
    }

    function acceptLine({ input, outputs, level, kind, pointer, granting }) {
        const others = `${named("output", granting)} grant${granting.length === 1 ? "s" : ""}`;
        if (kind === MULTICAST) {
            return `input ${input} accepts all its multicast grants of level ${level}: ${named("output", outputs)}`;
        }
        return `input ${input} accepts output ${outputs[0]}: the first granting output from its pointer ${pointer} `
            + `(${queueText({ level, kind })}; ${others})`;
    }

    function refusedLine({ input, output, accept, level, kind }) {
        const isOther = accept.level !== level || accept.kind !== kind;
        const why = isOther ? ` (${queueText({ level, kind })}), as it takes ${queueText(accept)}` : "";
        return `input ${input} refuses output ${output}${why}`;
    }

    function refusedMoveText({ port, from, to, partner }, rule) {
        if (rule === "rrm") {
            const way = from === to ? `stays at ${to}` : `moves from ${from} to ${to}`;
            return `${way}, one beyond input ${partner}, although the grant was refused`;
        }
        if (rule === "firm") {
            const way = from === to ? `stays at ${to}` : `moves from ${from} to ${to}`;
            return `${way}, the input that refused the grant, so that output ${port} grants it first again`;
        }
        return `stays at ${from}: its grant to input ${partner} was refused`;
    }

    function moveLine(move, rule) {
        const { side, port, level, from, to, partner, isAccepted } = move;
        const way = from === to ? `stays at ${to}` : `moves from ${from} to ${to}`;
        if (side === "shared") {
            const whole = isAccepted ? "is served whole" : "is not served whole";
            return `the shared multicast pointer of level ${level} ${way}: the head of input ${partner} ${whole}`;
        }
        if (side === "accept") {
            return `the accept pointer of input ${port}, level ${level}, ${way}, one beyond output ${partner}`;
        }
        const text = isAccepted ? `${way}, one beyond input ${partner}, which accepted` : refusedMoveText(move, rule);
        return `the grant pointer of output ${port}, level ${level}, ${text}`;
    }

    function moveLines({ moves, later, rule }) {
        const lines = moves.map((move) => moveLine(move, rule));
        if (later.length > 0) {
            const outputs = later.map((pair) => pair.output);
            lines.push(`${named("output", outputs)} ${outputs.length === 1 ? "was" : "were"} matched in a later round, which moves no pointer`);
        }
        return lines;
    }

    /** The sentences of a step, without their full stops. */
    function stepLines(step) {
        switch (step.phase) {
        case "request":
            return requestLines(step);
        case "grant":
            return step.grants.map(grantLine);
        case "accept":
            return step.accepts.map(acceptLine).concat(step.refused.map(refusedLine));
        default:
            return moveLines(step);
        }
    }

    /** What a step is about when it has not just one sentence. */
    function countsText({ phase, requests, grants, accepts, refused, moves }) {
        const inputs = (list) => new Set(list.map((one) => one.input)).size;
        switch (phase) {
        case "request":
            return `${plural(inputs(requests), "input")} ask${inputs(requests) === 1 ? "s" : ""}`;
        case "grant":
            return grants.length === 0
                ? "no output that is free is asked, so no further round adds a pair"
                : `${plural(grants.length, "output")} grant${grants.length === 1 ? "s" : ""}`;
        case "accept": {
            const way = `${plural(inputs(accepts), "input")} accept${inputs(accepts) === 1 ? "s" : ""}`;
            return refused.length === 0 ? way : `${way}, and ${plural(refused.length, "grant")} ${refused.length === 1 ? "is" : "are"} refused`;
        }
        default: {
            const moved = moves.filter(({ from, to }) => from !== to).length;
            const stayed = moves.filter(({ side, from, to, isAccepted }) => side === "grant" && from === to && !isAccepted).length;
            const rest = stayed === 0 ? "" : `, and ${stayed} of a refused grant ${stayed === 1 ? "stays" : "stay"}`;
            return `${plural(moved, "pointer")} move${moved === 1 ? "s" : ""}${rest}`;
        }
        }
    }

    function stepTitle({ phase, round }) {
        return round === null ? "Pointers" : `Round ${round + 1}, ${phase}`;
    }

    /** A step in one sentence: its only one, or how many there are of which sort. */
    function stepHeadline(step) {
        const lines = stepLines(step);
        return `${stepTitle(step)}: ${lines.length === 1 ? lines[0] : countsText(step)}.`;
    }

    viewer.listed = listed;
    viewer.stepLines = stepLines;
    viewer.stepTitle = stepTitle;
    viewer.stepHeadline = stepHeadline;
})(globalThis.SlotViewer = globalThis.SlotViewer || {});
