// A slot of the playground in tables: its rounds, its pointers, and the slots so far.
(function (viewer) {
    "use strict";

    const MOST_SHOWN = 200;

    /** Fills an element with a table; a row is a list of texts. */
    function fillTable(id, name, heads, rows) {
        const table = d3.select(`#${id}`).selectAll("table").data([null]).join("table").attr("aria-label", name);
        table.selectAll("thead").data([null]).join("thead").selectAll("tr").data([null]).join("tr")
            .selectAll("th").data(heads).join("th").attr("scope", "col").attr("class", "text").text((head) => head);
        table.selectAll("tbody").data([null]).join("tbody").selectAll("tr").data(rows).join("tr")
            .selectAll("td").data((row) => row).join("td").attr("class", "text").text((text) => text);
    }

    function counted(count, noun) {
        return `${count} ${noun}${count === 1 ? "" : "s"}`;
    }

    function grantText({ input, output }) {
        return `${output} to ${input}`;
    }

    function acceptText({ input, output }) {
        return `${input} takes ${output}`;
    }

    function pairText({ input, output }) {
        return `${input}>${output}`;
    }

    function listed(found, text) {
        return found.length === 0 ? "none" : found.map(text).join(", ");
    }

    /** The rounds of a slot, null while they are not known: which output grants which input, and which input takes which output. */
    function showRounds(rounds) {
        const rows = (rounds || []).map(({ grants, accepts }, at) => [at + 1, listed(grants, grantText), listed(accepts, acceptText)]);
        fillTable("rounds-table", "Rounds", ["round", "outputs grant inputs", "inputs accept outputs"], rows);
    }

    /** A pointer before and after a slot. */
    function moved(before, after) {
        return before === after ? `${after}` : `${before} to ${after}`;
    }

    /** The pointers of each port, before and after a slot, or as they are. */
    function showPointers(ports, before, after) {
        const rows = d3.range(ports).map((port) => [port, moved(before.grant[port], after.grant[port]), moved(before.accept[port], after.accept[port])]);
        fillTable("pointers-table", "Pointers", ["port", "as an output grants from", "as an input accepts from"], rows);
    }

    /** The slots so far, the last one first, and how many pairs a slot had. */
    function showHistory({ ports, history }) {
        const shown = history.slice(-MOST_SHOWN).reverse();
        const rows = shown.map((done) => [done.slot, done.count, done.used, listed(viewer.pairsOfInputs(done.inputs), pairText), d3.max(done.waits)]);
        fillTable("history-table", "Slots", ["slot", "pairs", "rounds used", "input>output", "longest wait"], rows);
        const mean = d3.mean(history, ({ count }) => count);
        const longest = d3.max(history, ({ waits }) => d3.max(waits));
        const text = history.length === 0 ? "No slot is decided yet."
            : `${history.length} decided, ${mean.toFixed(2)} pairs a slot, of at most ${ports}; the longest wait is ${counted(longest, "slot")}.`;
        d3.select("#history-line").text(text);
    }

    /** Of a queue in a slot: whether it asks, with its cells where they count, and its wait. */
    function queueText(model, count, wait) {
        const cells = model.isCounted && count > 0 ? [`${counted(count, "cell")} in its queue`] : [];
        const waits = wait > 0 ? [`has waited ${counted(wait, "slot")}`] : [];
        return [count > 0 ? "asked" : "not asked", ...cells, ...waits].join(", ");
    }

    /** What became of a crosspoint in a slot, in words; "" for nothing. */
    function fateText({ rounds, inputs }, input, output) {
        const isPair = inputs[output] === input;
        const isHere = (one) => one.input === input && one.output === output;
        const at = (rounds || []).findIndex(({ grants }) => grants.some(isHere));
        const round = at < 0 ? "" : ` in round ${(isPair ? rounds.findIndex(({ accepts }) => accepts.some(isHere)) : at) + 1}`;
        return isPair ? `matched${round}` : at < 0 ? "" : `granted and refused${round}`;
    }

    /** A crosspoint in words: in a slot that is decided, or in the next one. */
    function crosspointText(model, done, input, output) {
        const place = model.place(input, output);
        const [count, wait] = done === null ? [model.cells[place], model.waited(place)] : [done.cells[place], done.waits[place]];
        const fate = done === null ? "" : fateText(done, input, output);
        const told = [queueText(model, count, wait), fate].filter(Boolean).join(", ");
        return `Input ${input}, output ${output}, slot ${done === null ? model.slot : done.slot}: ${told}.`;
    }

    Object.assign(viewer, { counted, showRounds, showPointers, showHistory, crosspointText });
})(globalThis.SlotViewer = globalThis.SlotViewer || {});
