// How full one queue was over time, in one run or in two, below the time line and with its slots.
(function (viewer) {
    "use strict";

    const { UNICAST, MULTICAST, LEVELS, plural } = viewer;

    const HEIGHT = 84;
    const TOP = 12;
    const LABEL_GAP = 8;
    const DASH = [6, 4];

    /** The cells of a queue in each slot of a run, before the slot is served; null where none ever comes. */
    function queueLengths({ run, queues }, { input, output, level, kind }) {
        const queue = queues.find(input, kind, level, output);
        return queue === null ? null : Uint32Array.from({ length: run.slots }, (_, slot) => queue.length(slot));
    }

    /** The first queue of a crosspoint that a packet ever comes to: by level, unicast first; null where there is none. */
    function firstQueueAt({ queues }, input, output) {
        for (let level = 0; level < LEVELS; level += 1) {
            for (const kind of [UNICAST, MULTICAST]) {
                const queue = queues.find(input, kind, level, output);
                const isHere = queue !== null && (kind === UNICAST || queue.packets.some(({ packet }) => packet.outputs.includes(output)));
                if (isHere) {
                    return { input, output, level, kind };
                }
            }
        }
        return null;
    }

    class QueueChart {
        /** `onSlot` is told the slot that is pointed at. */
        constructor(element, onSlot) {
            this.element = element;
            this.canvas = d3.select(element).append("canvas").attr("role", "img").attr("aria-label", "The queue over time, as told above").node();
            /** The queue that is shown; the places of the fields. */
            this.place = { input: 0, output: 0, level: 0, kind: UNICAST };
            /** For each run with a packets file: the run's pane, and the lengths of the queue or null. */
            this.lines = [];
            this.timeline = null;
            element.addEventListener("pointerdown", (event) => {
                const x = event.clientX - element.getBoundingClientRect().left;
                onSlot(this.timeline.clampSlot(Math.floor(this.timeline.scale.invert(x))));
            });
        }

        /** Takes the queue of this place of the runs in some panes. */
        show(panes, place = this.place) {
            this.place = place;
            this.lines = panes.filter(({ queues }) => queues !== null).map((pane) => ({ pane, queues: pane.queues, lengths: queueLengths(pane, place) }));
        }

        /** Whether these panes have other packets files than those that are shown. */
        isStale(panes) {
            const found = panes.filter(({ queues }) => queues !== null);
            return found.length !== this.lines.length || found.some((pane, at) => pane.queues !== this.lines[at].queues);
        }

        get most() {
            return Math.max(1, d3.max(this.lines, ({ lengths }) => (lengths === null ? 0 : d3.max(lengths))));
        }

        draw(palette, timeline) {
            this.timeline = timeline;
            const { width, slot } = timeline;
            const context = viewer.sizeCanvas(this.canvas, width, HEIGHT + TOP + 2);
            this.element.style.height = `${HEIGHT + TOP + 2}px`;
            context.clearRect(0, 0, width, HEIGHT + TOP + 2);
            const [left, right] = timeline.scale.range();
            const y = d3.scaleLinear().domain([0, this.most]).range([TOP + HEIGHT, TOP]);
            this.lines.forEach(({ lengths }, at) => this.drawLine(context, palette, lengths, at, y));
            context.setLineDash([]);
            context.strokeStyle = palette.grid;
            context.lineWidth = 1;
            context.strokeRect(left - 0.5, TOP - 0.5, right - left + 1, HEIGHT + 1);
            this.drawLabels(context, palette, left);
            this.drawSlot(context, palette, slot, left, right);
        }

        /** Of the slots that share a column of pixels the fullest is drawn: filled in the first run, a dashed line in the second. */
        drawLine(context, palette, lengths, at, y) {
            if (lengths === null) {
                return;
            }
            const columns = this.timeline.columns(lengths.length);
            const tops = columns.map(({ x, from, to }) => [x, y(d3.max(lengths.subarray(from, to)))]);
            if (at === 0) {
                context.fillStyle = palette.accent;
                tops.forEach(([x, top]) => context.fillRect(x, top, 1, y(0) - top));
                return;
            }
            context.strokeStyle = palette.ink;
            context.lineWidth = 2;
            context.setLineDash(DASH);
            context.beginPath();
            tops.forEach(([x, top], index) => (index === 0 ? context.moveTo(x, top) : context.lineTo(x, top)));
            context.stroke();
        }

        drawLabels(context, palette, left) {
            context.fillStyle = palette.faint;
            context.font = "12px sans-serif";
            context.textAlign = "right";
            context.textBaseline = "middle";
            context.fillText(this.most, left - LABEL_GAP, TOP + 4);
            context.fillText("cells", left - LABEL_GAP, TOP + HEIGHT / 2);
            context.fillText("0", left - LABEL_GAP, TOP + HEIGHT - 4);
        }

        drawSlot(context, palette, slot, left, right) {
            const { scale } = this.timeline;
            const [from, to] = [scale(slot), scale(slot + 1)];
            if (to >= left && from <= right) {
                context.strokeStyle = palette.ink;
                context.lineWidth = 1.5;
                context.strokeRect(from, TOP - 4, Math.max(2, to - from), HEIGHT + 6);
            }
        }

        /** What the chart shows, in a sentence for each run. */
        told() {
            return this.lines.map(({ pane, lengths }, at) => {
                const run = this.lines.length > 1 ? `In the ${pane.place} run (${at === 0 ? "filled" : "dashed"})` : "Here";
                if (lengths === null) {
                    return `${run} no cell comes to this queue.`;
                }
                const most = d3.max(lengths);
                const { slot } = this.timeline;
                const now = slot < lengths.length ? `; in slot ${slot} it holds ${lengths[slot]}` : "";
                return `${run} the queue holds at most ${plural(most, "cell")}, first in slot ${lengths.indexOf(most)}${now}.`;
            }).join(" ");
        }
    }

    Object.assign(viewer, { QueueChart, firstQueueAt });
})(globalThis.SlotViewer = globalThis.SlotViewer || {});
