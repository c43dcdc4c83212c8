// The numbers of a whole run.
(function (viewer) {
    "use strict";

    const { plural } = viewer;

    const MOST_SLOTS_NAMED = 20;
    const REFERENCE_TEXT = "Beside an ideal switch with queues at its outputs: one more than the last slot in which it gave out "
        + "a cell for the output (ends), and in which the run fed the output (runs), 0 where there was none; the most cells by "
        + "which it was ahead at the end of a slot (lead), and the sum of these over all slots (extra).";

    function reportRows({ summary, deepest }) {
        const rows = Object.entries(summary).filter(([name]) => name !== "longest");
        const waits = summary.longest.map((wait, level) => [`longest wait of level ${level}`, wait]);
        return rows.concat(waits, deepest === null ? [] : [["cells in the deepest queue", deepest]]);
    }

    function journalRows(run, analysis) {
        const rows = [["ports", run.ports], ["rounds", run.rounds], ["slots", run.slots]];
        if (analysis.longest === null) {
            return rows;
        }
        rows.push(["cells", analysis.fed.greatest()]);
        return rows.concat(analysis.longest.map((wait, level) => [`longest wait of level ${level}`, wait]));
    }

    /** What the pass over a journal found so far, in sentences. */
    function verdict(run, analysis) {
        const { differing, failure, done } = analysis;
        const title = viewer.schedulerTitle(analysis.rule);
        const by = analysis.rule === "islip" ? "" : ` by ${title}`;
        const found = [];
        if (done < run.slots) {
            found.push(`${done} of ${plural(run.slots, "slot")} are checked.`);
        }
        if (differing.length > 0) {
            const named = differing.slice(0, MOST_SLOTS_NAMED).join(", ");
            const rest = differing.length > MOST_SLOTS_NAMED ? " and more" : "";
            found.push(`In ${plural(differing.length, "slot")} the match is not that of ${title}: ${named}${rest}.`);
        } else if (done === run.slots) {
            found.push(`Each match is that of ${title}, with all pointers at port 0 before slot 0.`);
        }
        if (failure !== null) {
            const first = `slot ${failure.slot} ${failure.reason}`;
            const check = analysis.rule === "islip" ? ", as tiny_tera check tells it," : "";
            found.push(`The journal is not lawful${by}; the first failure${check} is: ${first}.`);
        } else if (done === run.slots) {
            found.push(`The journal is lawful${by}: requests stay until they are served, and the run ends with the first `
                + "slot in which no input has more to come.");
        }
        return found;
    }

    function drawReport(root, run) {
        const tables = root.append("div").attr("class", "tables");
        viewer.appendTable(tables.append("div"), "Summary", ["what", "number"], reportRows(run));
        const outputs = run.outputs.map(({ packets, cells }, output) => [output, packets, cells]);
        viewer.appendTable(tables.append("div"), "Outputs", ["output", "packets", "cells"], outputs);
        if (run.queues.length > 0) {
            const queues = run.queues.map(({ input, output, level, kind, packets, dropped, cells, peak, slot }) => {
                return [input, output === null ? "several" : String(output), level, viewer.KIND_NAMES[kind], packets, dropped, cells, peak, slot];
            });
            const headings = ["input", "output", "level", "kind", "packets", "dropped", "cells", "peak", "in slot"];
            viewer.appendTable(tables.append("div"), "Queues", headings, queues);
        }
        if (run.reference.length > 0) {
            const lines = run.reference.map(({ ends, runs, lead, extra }, output) => [output, ends, runs, lead, extra]);
            const headings = ["output", "ends", "runs", "lead", "extra"];
            viewer.appendTable(tables.append("div"), "Output-queued reference", headings, lines);
            root.append("p").attr("class", "faint").text(REFERENCE_TEXT);
        }
    }

    /** Fills the element with the numbers of a run; `analysis` is null where there are no slots to see. */
    function drawSummary(element, run, analysis, heading) {
        const root = d3.select(element);
        root.selectAll("*").remove();
        root.append("h2").attr("id", heading.id).text(heading.text);
        if (run.form === "report") {
            drawReport(root, run);
            return;
        }
        verdict(run, analysis).forEach((sentence) => root.append("p").text(sentence));
        viewer.appendTable(root, "Summary", ["what", "number"], journalRows(run, analysis));
    }

    function titles(names) {
        return names.map(viewer.schedulerTitle).join(" and of ");
    }

    /** Whose matches a journal has, in one line: that of a pane. */
    function rulesLine({ run, analysis, fitting, left }) {
        const title = viewer.schedulerTitle(analysis.rule);
        const { differing, done } = analysis;
        if (left !== null) {
            return `Each match is that of ${titles(left.fitting)}. By ${viewer.schedulerTitle(left.rule)} slot ${left.slot} has another.`;
        }
        if (differing.length === 0) {
            return done === run.slots ? `Each match is that of ${title}.` : `So far each match is that of ${title}.`;
        }
        const found = `In ${plural(differing.length, "slot")} the match is not that of ${title}, the first is slot ${differing[0]}.`;
        if (fitting === null) {
            return found;
        }
        return fitting.length === 0
            ? `${found} No other scheduler makes all these matches.`
            : `${found} All matches are those of ${titles(fitting)}.`;
    }

    viewer.rulesLine = rulesLine;
    viewer.drawSummary = drawSummary;
})(globalThis.SlotViewer = globalThis.SlotViewer || {});
