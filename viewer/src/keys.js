// What the user does with keys.
(function (viewer) {
    "use strict";

    const { element } = viewer;

    const LONG_STEP = 10;
    const PAGE_STEP = 100;
    const FIELDS = "input, select, textarea";

    function watchKeys(page) {
        document.addEventListener("keydown", (event) => {
            if (event.ctrlKey || event.metaKey || event.altKey || !page.hasSlots || event.target.matches(FIELDS)) {
                return;
            }
            const pane = page.panes.find((one) => one.element("crossbar") === event.target);
            const isDone = pane !== undefined && onCrossbarKey(page, pane, event);
            if (isDone || onSlotKey(page, event) || onStepKey(page, event)) {
                event.preventDefault();
            }
        });
    }

    /** The arrow keys in a crossbar move the chosen crosspoint. */
    function onCrossbarKey(page, pane, { key }) {
        const moves = { ArrowLeft: [0, -1], ArrowRight: [0, 1], ArrowUp: [-1, 0], ArrowDown: [1, 0] };
        const move = moves[key];
        if (move === undefined) {
            return false;
        }
        const { ports } = pane.run;
        const { selected } = pane.crossbar;
        const place = (value) => Math.max(0, Math.min(ports - 1, value));
        if (selected === null) {
            page.select(0, 0);
        } else {
            page.select(place(selected.input + move[0]), place(selected.output + move[1]));
        }
        return true;
    }

    /** Keys that go from slot to slot. The arrows and pages that scroll do so except on the time line. */
    function onSlotKey(page, { key, shiftKey, target }) {
        const step = shiftKey ? LONG_STEP : 1;
        const last = page.slots;
        const moves = { ArrowLeft: -step, ArrowRight: step, Home: -last, End: last };
        if (target === element("timeline")) {
            Object.assign(moves, { ArrowDown: -step, ArrowUp: step, PageUp: PAGE_STEP, PageDown: -PAGE_STEP });
        }
        if (moves[key] !== undefined) {
            page.goByUser(page.slot + moves[key]);
            return true;
        }
        if (key === " " && !target.matches("button, summary, .scroll")) {
            page.togglePlay();
            return true;
        }
        return false;
    }

    function onStepKey(page, { key }) {
        const acts = { ".": () => page.moveStep(1), ",": () => page.moveStep(-1), Escape: () => page.goToStep(null) };
        if (acts[key] === undefined) {
            return false;
        }
        acts[key]();
        return true;
    }

    viewer.watchKeys = watchKeys;
})(globalThis.SlotViewer = globalThis.SlotViewer || {});
