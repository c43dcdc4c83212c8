// A slot in words and tables.
(function (viewer) {
    "use strict";

    const { KIND_NAMES, UNICAST, MULTICAST, LEVELS } = viewer;

    const MOST_LINES = 100;
    const MOST_PAIRS_TOLD = 8;

    function plural(count, noun) {
        return `${count} ${noun}${count === 1 ? "" : "s"}`;
    }

    function pairText({ input, output, level, kind }) {
        return `input ${input} feeds output ${output}, level ${level}, ${KIND_NAMES[kind]}`;
    }

    function waitText(wait) {
        if (wait === null) {
            return "its wait is not computed yet";
        }
        return wait === 0 ? "served in this slot" : `waits ${plural(wait, "slot")}`;
    }

    /** The scheduler by which the slot is decided. */
    function ruleOf(view) {
        return viewer.schedulerTitle(view.walker.scheduler.rule);
    }

    function waitingText(queues) {
        if (queues.length === 0) {
            return "No queue waits.";
        }
        const longest = plural(queues[0].wait, "slot");
        return `${plural(queues.length, "queue")} wait${queues.length === 1 ? "s" : ""}, the longest ${longest}.`;
    }

    /** A slot in few words, for a screen reader that steps through them. */
    function briefly(view) {
        if (view.isEnded) {
            return `Slot ${view.slot}: the run ended with slot ${view.run.slots - 1}.`;
        }
        const pairs = view.pairs.length <= MOST_PAIRS_TOLD ? view.pairs.map(pairText) : [];
        const count = `Slot ${view.slot}: ${plural(view.pairs.length, "pair")}`;
        const parts = [pairs.length === 0 ? `${count}.` : `${count}: ${pairs.join("; ")}.`];
        if (view.walker !== null) {
            parts.push(waitingText(view.waiting()));
        }
        if (view.differing.length > 0) {
            parts.push(`The match is not that of ${ruleOf(view)}.`);
        }
        return parts.join(" ");
    }

    /** How many pairs and waits a slot has, in one line. */
    function inOneLine(view) {
        if (view.isEnded) {
            return briefly(view);
        }
        const count = `Slot ${view.slot}: ${plural(view.pairs.length, "pair")} of ${view.ports}.`;
        const waits = view.walker === null ? "" : ` ${waitingText(view.waiting())}`;
        return `${count}${waits}${view.differing.length > 0 ? ` The match is not that of ${ruleOf(view)}.` : ""}`;
    }

    /** A crosspoint in words. */
    function describeCrosspoint(view, { input, output }) {
        const parts = view.pairs.filter((pair) => pair.input === input && pair.output === output)
            .map((pair) => `matched at level ${pair.level}, ${KIND_NAMES[pair.kind]}`);
        if (view.rows !== null) {
            for (const { level, kind, wait } of view.postedAt(input, output)) {
                parts.push(`posted at level ${level}, ${KIND_NAMES[kind]}, ${waitText(wait)}`);
            }
        }
        if (view.pointers !== null) {
            const { grant, accept } = view.pointers;
            const levels = d3.range(LEVELS);
            const grants = levels.filter((level) => grant[level * view.ports + output] === input);
            const accepts = levels.filter((level) => accept[level * view.ports + input] === output);
            if (grants.length > 0) {
                parts.push(`grant pointer of the output here at level ${grants.join(", ")}`);
            }
            if (accepts.length > 0) {
                parts.push(`accept pointer of the input here at level ${accepts.join(", ")}`);
            }
        }
        parts.push(...viewer.packetsText(view, input, output));
        return `Input ${input}, output ${output}: ${parts.length === 0 ? "nothing" : parts.join("; ")}.`;
    }

    function sentences(view) {
        const { run, slot, pairs, ports } = view;
        const preferred = KIND_NAMES[viewer.preferredKind(slot)];
        const found = [`${pairs.length} of ${plural(ports, "output")} are fed. The slot prefers ${preferred}.`];
        if (view.used !== null) {
            const by = run.form === "journal" ? `By ${ruleOf(view)} ` : "";
            const rounds = view.used === 0
                ? `none of ${plural(run.rounds, "round")} added a pair.`
                : `${view.used} of ${plural(run.rounds, "round")} added pairs, `
                    + `and the first of them matched ${plural(view.first, "output")}.`;
            found.push(by === "" ? rounds[0].toUpperCase() + rounds.slice(1) : by + rounds);
        }
        if (!view.isComplete) {
            found.push("Pointers and waits of this slot are not computed yet.");
        }
        return found;
    }

    function appendList(root, lines, className) {
        const list = root.append("ul").attr("class", className || null);
        list.selectAll("li").data(lines.slice(0, MOST_LINES)).join("li").text((line) => line);
        appendRest(root, lines.length);
    }

    function appendRest(root, count) {
        if (count > MOST_LINES) {
            root.append("p").text(`and ${count - MOST_LINES} more`);
        }
    }

    /** A table in a part of the page that scrolls, also by keyboard. Texts are aligned left, numbers right. */
    function appendTable(root, name, headings, rows) {
        const isText = (cell) => typeof cell === "string";
        const frame = root.append("div").attr("class", "scroll").attr("tabindex", 0)
            .attr("role", "region").attr("aria-label", name);
        const table = frame.append("table");
        table.append("thead").append("tr").selectAll("th").data(headings).join("th").attr("scope", "col")
            .classed("text", (_, column) => rows.length > 0 && isText(rows[0][column])).text((heading) => heading);
        table.append("tbody").selectAll("tr").data(rows.slice(0, MOST_LINES)).join("tr")
            .selectAll("td").data((row) => row).join("td").classed("text", isText).text((cell) => cell);
        appendRest(frame, rows.length);
    }

    function appendMatch(root, view) {
        root.append("h3").text(`Matched pairs: ${view.pairs.length}`);
        const rows = view.pairs.map((pair) => [pair.input, pair.output, pair.level, KIND_NAMES[pair.kind]]);
        if (rows.length > 0) {
            appendTable(root, "Matched pairs", ["input", "output", "level", "kind"], rows);
        }
    }

    function appendDifferences(root, view) {
        const sourceText = (pair) => `input ${pair.input}, level ${pair.level}, ${KIND_NAMES[pair.kind]}`;
        const sideText = (pair) => (pair === null ? "none" : sourceText(pair));
        const lines = view.differing.map((output) => {
            const found = view.pairs.find((pair) => pair.output === output) || null;
            const wanted = view.pairByRules(output);
            return `output ${output}: the journal has ${sideText(found)}; by ${ruleOf(view)} it is ${sideText(wanted)}`;
        });
        root.append("h3").attr("class", "alarm").text(`The match is not that of ${ruleOf(view)}`);
        appendList(root, lines, "alarm");
    }

    function appendWaiting(root, view) {
        const queues = view.waiting();
        root.append("h3").text(`Queues that wait: ${queues.length}`);
        const rows = queues.map(({ input, outputs, level, kind, wait }) => {
            return [wait, input, outputs.join(", "), level, KIND_NAMES[kind]];
        });
        if (rows.length > 0) {
            appendTable(root, "Queues that wait", ["slots", "input", "outputs", "level", "kind"], rows);
        }
    }

    function rowText(view, input) {
        const parts = [];
        for (let level = 0; level < LEVELS; level += 1) {
            for (const kind of [UNICAST, MULTICAST]) {
                const outputs = view.posted(input, kind, level);
                if (outputs.length > 0) {
                    parts.push(`level ${level} ${KIND_NAMES[kind]} to ${outputs.join(", ")}`);
                }
            }
        }
        return parts.length === 0 ? null : `input ${input}: ${parts.join("; ")}`;
    }

    /** A part that folds; it is filled when it is opened first. */
    function appendFolded(root, title, isOpen, fill) {
        const part = root.append("details");
        part.append("summary").text(title);
        const body = part.append("div");
        const fillOnce = () => {
            if (part.node().open && body.selectAll("*").empty()) {
                fill(body);
            }
        };
        part.node().open = isOpen;
        part.on("toggle", fillOnce);
        fillOnce();
    }

    function fillRows(root, view) {
        const lines = d3.range(view.ports).map((input) => rowText(view, input)).filter((line) => line !== null);
        const more = d3.range(view.ports).filter((input) => view.rows.more[input]);
        appendList(root, lines);
        root.append("p").text(more.length === 0
            ? "No input has more to come."
            : `More is to come at ${plural(more.length, "input")}: ${more.join(", ")}.`);
    }

    function fillPointers(root, view, level) {
        const { grant, accept, shared } = view.pointers;
        root.append("p").text(`Shared multicast pointers of levels 0 to 3: inputs ${Array.from(shared).join(", ")}.`);
        const start = level * view.ports;
        const rows = d3.range(view.ports).map((port) => [port, grant[start + port], accept[start + port]]);
        const headings = ["port", "grant pointer of the output, at input", "accept pointer of the input, at output"];
        appendTable(root, `Pointers of level ${level}`, headings, rows);
    }

    /** The step that is shown, in sentences. */
    function appendStep(root, step) {
        root.append("h3").text(viewer.stepTitle(step));
        const lines = viewer.stepLines(step);
        if (lines.length === 0) {
            root.append("p").text(viewer.stepHeadline(step));
        } else {
            appendList(root.append("div").attr("class", "scroll step-lines").attr("tabindex", 0).attr("role", "region")
                .attr("aria-label", `Sentences of ${viewer.stepTitle(step)}`), lines);
        }
    }

    /** What the other run has in this slot, and this one does not, and the other way round. */
    function appendComparison(root, { here, there, unlikeWaits }) {
        root.append("h3").text("Beside the other run");
        const lines = here.map((pair) => `only here: ${pairText(pair)}`).concat(there.map((pair) => `only there: ${pairText(pair)}`));
        if (lines.length === 0) {
            root.append("p").text("Both runs have the same pairs in this slot.");
        } else {
            appendList(root, lines);
        }
        if (unlikeWaits !== null && unlikeWaits.size > 0) {
            const waits = (wait) => (wait === null ? "not posted" : String(wait));
            const rows = [...unlikeWaits.values()].map(({ input, outputs, level, kind, wait, otherWait }) => {
                return [waits(wait), waits(otherWait), input, outputs.join(", "), level, KIND_NAMES[kind]];
            });
            root.append("p").text(`${plural(rows.length, "queue")} ${rows.length === 1 ? "has" : "have"} waited otherwise there:`);
            appendTable(root, "Waits that differ", ["here", "there", "input", "outputs", "level", "kind"], rows);
        }
    }

    /** The parts that can have the focus, as a drawing makes them: by their kind, those of one kind in order. */
    function focusParts(element) {
        return Array.from(element.querySelectorAll("summary, .scroll"));
    }

    function focusName(part) {
        return part.matches("summary") ? part.textContent.split(",")[0] : part.getAttribute("aria-label").split(" ")[0];
    }

    /** Draws a part of the page anew; the focus stays on the part of the same name. */
    function keepFocus(element, draw) {
        const focused = focusParts(element).find((part) => part === document.activeElement);
        draw();
        const again = focused && focusParts(element).find((part) => focusName(part) === focusName(focused));
        if (again) {
            again.focus({ preventScroll: true });
        }
    }

    /** Fills the element with a slot in words; what is folded stays as it was. */
    function drawSlotText(element, view, shown) {
        keepFocus(element, () => fillSlotText(d3.select(element), view, shown));
    }

    function fillSlotText(root, view, { pointerLevel, step, beside, titleId }) {
        const [isRowsOpen, isPointersOpen] = root.selectAll("details").nodes().map((part) => part.open);
        root.selectAll("*").remove();
        root.append("h2").attr("id", titleId).text(`Slot ${view.slot} of 0 to ${view.run.slots - 1}`);
        if (view.isEnded) {
            root.append("p").text(`The run ended with slot ${view.run.slots - 1}.`);
            return;
        }
        if (step !== null) {
            appendStep(root, step);
        }
        sentences(view).forEach((sentence) => root.append("p").text(sentence));
        if (view.differing.length > 0) {
            appendDifferences(root, view);
        }
        if (beside !== null) {
            appendComparison(root, beside);
        }
        appendMatch(root, view);
        if (view.walker !== null) {
            appendWaiting(root, view);
        }
        if (view.rows !== null) {
            appendFolded(root, "Posted rows", isRowsOpen || false, (body) => fillRows(body, view));
        }
        if (view.pointers !== null && pointerLevel !== "none") {
            const level = Number(pointerLevel);
            const title = `Pointers before the slot, level ${level}`;
            appendFolded(root, title, isPointersOpen || false, (body) => fillPointers(body, view, level));
        }
    }

    viewer.plural = plural;
    viewer.briefly = briefly;
    viewer.inOneLine = inOneLine;
    viewer.describeCrosspoint = describeCrosspoint;
    viewer.appendTable = appendTable;
    viewer.drawSlotText = drawSlotText;
})(globalThis.SlotViewer = globalThis.SlotViewer || {});
