// What the marks of the crossbar mean.
(function (viewer) {
    "use strict";

    const DISC = '<circle cx="8" cy="8" r="6" fill="COLOUR"/>';
    const ENTRIES = [
        { mark: DISC.replace("COLOUR", "var(--level-0)"), text: "level 0" },
        { mark: DISC.replace("COLOUR", "var(--level-1)"), text: "level 1" },
        { mark: DISC.replace("COLOUR", "var(--level-2)"), text: "level 2" },
        { mark: DISC.replace("COLOUR", "var(--level-3)"), text: "level 3" },
        { mark: DISC.replace("COLOUR", "var(--faint)"), text: "unicast pair" },
        { mark: '<path d="M8 1L15 8L8 15L1 8Z" fill="var(--faint)"/>', text: "multicast pair" },
    ];
    const JOURNAL_ENTRIES = [
        {
            mark: '<rect x="2" y="2" width="12" height="12" fill="var(--faint)" opacity="0.45"/>',
            text: "posted, unicast, a quarter of the cell for each level: the stronger, the longer it waits",
        },
        {
            mark: '<rect x="3" y="3" width="10" height="10" fill="none" stroke="var(--faint)" stroke-width="2"/>',
            text: "posted, multicast head",
        },
        { mark: '<path d="M2 8L12 2L12 14Z" fill="var(--ink)"/>', text: "grant pointer of the output, at an input" },
        { mark: '<path d="M8 14L2 4L14 4Z" fill="var(--ink)"/>', text: "accept pointer of the input, at an output" },
        { mark: '<path d="M8 3L14 8L8 13L2 8Z" fill="var(--ink)"/>', text: "left of the inputs: shared multicast pointer" },
        {
            mark: '<circle cx="8" cy="8" r="5" fill="none" stroke="var(--alarm)" stroke-width="2" stroke-dasharray="2 2"/>',
            text: "the pair of the scheduler, where the journal has another",
        },
    ];
    const RING = '<circle cx="8" cy="8" r="6" fill="none" stroke="var(--faint)" stroke-width="2"/>';
    const STEP_ENTRIES = [
        { mark: RING, text: "step: asked, of dots where the output is matched; a diamond for multicast; the level beside it" },
        { mark: `${RING}<circle cx="8" cy="8" r="3" fill="var(--faint)"/>`, text: "step: granted, with an arrow from the output" },
        { mark: '<path d="M2 2L14 14M2 14L14 2" stroke="var(--alarm)" stroke-width="2"/>', text: "step: the grant is refused" },
        { mark: '<path d="M2 8L12 2L12 14Z" fill="none" stroke="var(--ink)"/>', text: "step: where a pointer was that has moved" },
        { mark: '<path d="M8 2L8 14" stroke="var(--ink)" stroke-width="2"/>', text: "step: a grant pointer that stays, as its grant was refused" },
    ];
    const BESIDE_ENTRIES = [
        {
            mark: '<circle cx="8" cy="8" r="7" fill="none" stroke="var(--ink)"/><circle cx="8" cy="8" r="4" fill="var(--faint)"/>',
            text: "a pair of this run alone",
        },
        {
            mark: '<text x="3" y="13" font-size="14" fill="var(--ink)">≠</text>',
            text: "another wait in the other run; a corner where there is no room",
        },
    ];
    const QUEUE_ENTRIES = [
        {
            mark: '<rect x="2" y="8" width="12" height="6" fill="var(--faint)" opacity="0.6"/>',
            text: "cells in a queue: the higher, the more; within a frame those of multicast",
        },
        {
            mark: '<path d="M1 1H15V15H1ZM4 4H12V12H4Z" fill="none" stroke="var(--accent)"/>',
            text: "the packet that is followed waits",
        },
    ];

    /** `shown` says whether there are rows, a second run, and a packets file. */
    function drawLegend(element, { hasRows, isBeside, hasQueues }) {
        const parts = [[true, ENTRIES], [hasRows, JOURNAL_ENTRIES], [hasRows, STEP_ENTRIES], [isBeside, BESIDE_ENTRIES], [hasQueues, QUEUE_ENTRIES]];
        const entries = parts.filter(([isShown]) => isShown).flatMap(([, some]) => some);
        d3.select(element).selectAll("span").data(entries).join("span")
            .html((entry) => `<svg width="16" height="16" aria-hidden="true">${entry.mark}</svg>${entry.text}`);
    }

    viewer.drawLegend = drawLegend;
})(globalThis.SlotViewer = globalThis.SlotViewer || {});
