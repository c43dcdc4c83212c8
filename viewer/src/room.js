// How large the crossbars can be, from the room of the window.
(function (viewer) {
    "use strict";

    /** Narrower pages have one column: the same width stands in style.css. */
    const NARROW = window.matchMedia("(max-width: 60rem)");
    const LEAST_SIDE = 240;
    const LEAST_TEXT_WIDTH = 400;
    const GAP = 24;
    /** Below a crossbar stands what is told of a crosspoint. */
    const FOOT = 60;
    const MARGIN = 8;

    /**
     * The room of the crossbar in each of some frames, in pixels. In a wide page it ends above the window's
     * lower edge while the page is not scrolled; in a narrow one a crossbar and the controls fill the window.
     */
    function crossbarRoom(columns, controls, frames) {
        const width = columns.clientWidth;
        if (NARROW.matches) {
            const height = window.innerHeight - controls.offsetHeight - MARGIN;
            return { width, height: Math.max(LEAST_SIDE, height) };
        }
        const top = d3.max(frames, (frame) => frame.getBoundingClientRect().top) + window.scrollY;
        const height = Math.max(LEAST_SIDE, window.innerHeight - top - FOOT);
        const share = frames.length === 1 ? width - LEAST_TEXT_WIDTH - GAP : (width - GAP * (frames.length - 1)) / frames.length;
        return { width: Math.max(LEAST_SIDE, share), height };
    }

    /** Calls `onRoom` where the place of the crossbars has changed, and not where only texts below them have. */
    function watchRoom(columns, parts, frames, onRoom) {
        let place = "";
        const observer = new ResizeObserver(() => {
            const now = [columns.clientWidth, columns.offsetTop, ...frames.map((frame) => frame.offsetTop)].join(" ");
            if (now !== place) {
                place = now;
                onRoom();
            }
        });
        parts.forEach((part) => observer.observe(part));
    }

    viewer.watchRoom = watchRoom;
    viewer.crossbarRoom = crossbarRoom;
})(globalThis.SlotViewer = globalThis.SlotViewer || {});
