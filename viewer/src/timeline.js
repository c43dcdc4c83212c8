// The time line of a run: matched pairs, and for each output and input its waits or its share.
(function (viewer) {
    "use strict";

    const { HEAT_STEPS } = viewer;

    const MARGIN = { left: 66, right: 12 };
    const TICKS = { top: 2, height: 6 };
    const PAIRS = { top: 12, height: 50 };
    const OUTPUTS_TOP = 72;
    const LANES_GAP = 10;
    const AXIS_HEIGHT = 24;
    /** Below the axis: the slots in which two runs differ. */
    const UNLIKE = { top: 24, height: 8 };
    /** The lanes of all outputs, and of all inputs, are as high as whole pixels for each allow. */
    const LANES_HEIGHT = 80;
    const MOST_LANE_HEIGHT = 16;
    /** Never less than so many slots are seen. */
    const LEAST_SEEN = 8;
    const ZOOM_STEP = 4;

    class Timeline {
        /** `onSlot` is told the slot that was pointed at. */
        constructor(element, onSlot) {
            this.element = element;
            this.onSlot = onSlot;
            this.analysis = null;
            this.lanes = "waits";
            this.slot = 0;
            /** Where another run differs, or null; and the slots of a packet that is followed, or null. */
            this.comparison = null;
            this.followed = null;
            /** From slots to pixels of the part that is seen; null before a run is open. */
            this.scale = null;
            const root = d3.select(element);
            this.canvas = root.append("canvas").node();
            this.cursorCanvas = root.append("canvas").node();
            this.svg = root.append("svg").attr("aria-hidden", "true");
            this.axis = this.svg.append("g");
            this.labels = this.svg.append("g");
            this.zoom = d3.zoom().filter(() => d3.event.type === "wheel").on("zoom", () => this.onZoom());
            root.call(this.zoom).on("dblclick.zoom", null);
            this.followPointer();
        }

        /** Pressing and drawing the pointer along goes from slot to slot. */
        followPointer() {
            const go = (event) => {
                const left = this.element.getBoundingClientRect().left;
                this.onSlot(this.clampSlot(Math.floor(this.scale.invert(event.clientX - left))));
            };
            this.element.addEventListener("pointerdown", (event) => {
                if (event.button === 0) {
                    this.element.setPointerCapture(event.pointerId);
                    go(event);
                }
            });
            this.element.addEventListener("pointermove", (event) => {
                if (this.element.hasPointerCapture(event.pointerId)) {
                    go(event);
                }
            });
        }

        clampSlot(slot) {
            return Math.max(0, Math.min(this.slots - 1, slot));
        }

        /** Shows a run from its first slot to its last, or to that of a longer run beside it. */
        open(analysis, slots = analysis.run.slots, comparison = null) {
            this.analysis = analysis;
            this.slots = slots;
            this.comparison = comparison;
            this.scale = null;
            this.layOut();
        }

        /** Fits the time line to its width; the same slots stay seen. */
        layOut() {
            const { ports } = this.analysis.run;
            const seen = this.scale === null ? [0, this.slots] : this.seen();
            this.width = this.element.clientWidth;
            this.lanesHeight = ports * Math.min(MOST_LANE_HEIGHT, Math.floor(LANES_HEIGHT / ports));
            this.inputsTop = OUTPUTS_TOP + this.lanesHeight + LANES_GAP;
            this.bottom = this.inputsTop + this.lanesHeight;
            this.height = this.bottom + AXIS_HEIGHT + (this.comparison === null ? 0 : UNLIKE.height + 6);
            this.element.style.height = `${this.height}px`;
            this.svg.attr("width", this.width).attr("height", this.height);
            const extent = [[MARGIN.left, 0], [this.width - MARGIN.right, this.height]];
            this.zoom.extent(extent).translateExtent(extent).scaleExtent([1, Math.max(1, this.slots / LEAST_SEEN)]);
            this.wholeScale = d3.scaleLinear().domain([0, this.slots]).range([MARGIN.left, this.width - MARGIN.right]);
            this.see(seen);
        }

        /** Sets the first slot that is seen, and the one after the last. */
        see([from, to]) {
            const factor = this.slots / (to - from);
            const shift = MARGIN.left - factor * this.wholeScale(from);
            this.zoom.transform(d3.select(this.element), d3.zoomIdentity.translate(shift, 0).scale(factor));
        }

        onZoom() {
            this.scale = d3.event.transform.rescaleX(this.wholeScale);
            this.onChange();
        }

        /** Set by the page: asks for a new drawing. */
        onChange() {}

        zoomBy(factor) {
            const middle = this.scale(this.slot + 0.5);
            const isSeen = middle >= MARGIN.left && middle <= this.width - MARGIN.right;
            this.zoom.scaleBy(d3.select(this.element), factor, isSeen ? [middle, 0] : undefined);
        }

        zoomIn() {
            this.zoomBy(ZOOM_STEP);
        }

        zoomOut() {
            this.zoomBy(1 / ZOOM_STEP);
        }

        zoomAll() {
            this.see([0, this.slots]);
        }

        /** The first slot that is seen, and the one after the last. */
        seen() {
            return this.scale.range().map((x) => this.scale.invert(x));
        }

        /** Moves the part that is seen so that the slot is in it. */
        reveal(slot) {
            this.slot = slot;
            const [from, to] = this.seen();
            if (slot < from || slot + 1 > to) {
                this.zoom.translateTo(d3.select(this.element), this.wholeScale(slot + 0.5), 0);
            }
        }

        /** What the lanes of the ports show: for outputs and inputs a pyramid, and the greatest number. */
        laneData() {
            const { analysis } = this;
            if (analysis.run.form === "journal" && this.lanes === "waits") {
                const most = analysis.outputWaits.greatest();
                return { outputs: analysis.outputWaits, inputs: analysis.inputWaits, most, isShare: false };
            }
            return { outputs: analysis.outputShares, inputs: analysis.inputShares, most: 1, isShare: true };
        }

        /** Draws all but the cursor. */
        draw(palette) {
            this.palette = palette;
            const context = viewer.sizeCanvas(this.canvas, this.width, this.height);
            context.clearRect(0, 0, this.width, this.height);
            const columns = this.columns();
            this.drawPairs(context, columns);
            const data = this.laneData();
            this.drawLanes(context, columns, data.outputs, OUTPUTS_TOP, data);
            this.drawLanes(context, columns, data.inputs, this.inputsTop, data);
            this.drawDifferences(context, columns);
            this.drawUnlike(context);
            this.drawFollowed(context);
            this.drawAxis();
            this.drawCursor();
        }

        /** For each column of pixels the slots that it shows, as far as they are known. */
        columns(most = this.analysis.done) {
            const found = [];
            for (let x = MARGIN.left; x < this.width - MARGIN.right; x += 1) {
                const from = this.clampSlot(Math.floor(this.scale.invert(x)));
                const to = Math.min(most, Math.max(from + 1, Math.floor(this.scale.invert(x + 1))));
                if (from < to) {
                    found.push({ x, from, to });
                }
            }
            return found;
        }

        drawPairs(context, columns) {
            const height = d3.scaleLinear().domain([0, this.analysis.run.ports]).range([0, PAIRS.height]);
            context.fillStyle = this.palette.accent;
            for (const { x, from, to } of columns) {
                const bar = height(this.analysis.fed.over(from, to)[0] / (to - from));
                context.fillRect(x, PAIRS.top + PAIRS.height - bar, 1, bar);
            }
            this.drawFrame(context, PAIRS.top, PAIRS.height);
        }

        drawFrame(context, top, height) {
            context.strokeStyle = this.palette.grid;
            context.lineWidth = 1;
            context.strokeRect(MARGIN.left - 0.5, top - 0.5, this.width - MARGIN.left - MARGIN.right + 1, height + 1);
        }

        /** Draws one row of pixels a port, and stretches it to its height. */
        drawLanes(context, columns, pyramid, top, { most, isShare }) {
            if (columns.length > 0) {
                const image = new ImageData(columns.length, pyramid.lanes);
                const pixels = new Uint32Array(image.data.buffer);
                const tones = this.tones(isShare ? HEAT_STEPS - 1 : most, isShare);
                const totals = new Uint32Array(pyramid.lanes);
                columns.forEach(({ from, to }, column) => {
                    pyramid.over(from, to, totals);
                    const scale = isShare ? (HEAT_STEPS - 1) / (to - from) : 1;
                    for (let lane = 0; lane < pyramid.lanes; lane += 1) {
                        pixels[lane * columns.length + column] = tones[Math.ceil(totals[lane] * scale)];
                    }
                });
                viewer.stretchImage(context, image, columns[0].x, top, image.width, this.lanesHeight);
            }
            this.drawFrame(context, top, this.lanesHeight);
        }

        /** The pixels of the numbers from 0 to the greatest one. */
        tones(most, isLinear) {
            const scale = isLinear ? d3.scaleLinear() : d3.scaleSymlog();
            scale.domain([0, Math.max(1, most)]).range([0, HEAT_STEPS - 1]);
            const heat = this.palette.heat.map(pixelOf);
            return Uint32Array.from({ length: most + 1 }, (_, value) => heat[Math.ceil(scale(value))]);
        }

        /** A tick over each column with a slot whose match is not that of the rules. */
        drawDifferences(context, columns) {
            const { differences } = this.analysis;
            if (differences !== undefined) {
                context.fillStyle = this.palette.alarm;
                columns.filter(({ from, to }) => differences.over(from, to)[0] > 0)
                    .forEach(({ x }) => context.fillRect(x - 1, TICKS.top, 3, TICKS.height));
            }
        }

        /** A tick below each column with a slot in which the two runs differ. */
        drawUnlike(context) {
            if (this.comparison !== null) {
                const { differences, slots } = this.comparison;
                context.fillStyle = this.palette.ink;
                this.columns(slots).filter(({ from, to }) => differences.over(from, to)[0] > 0)
                    .forEach(({ x }) => context.fillRect(x, this.bottom + UNLIKE.top, 1, UNLIKE.height));
            }
        }

        /** A bracket over the slots in which a packet is in the switch. */
        drawFollowed(context) {
            if (this.followed === null) {
                return;
            }
            const place = (slot) => Math.max(MARGIN.left, Math.min(this.width - MARGIN.right, this.scale(slot)));
            const [left, right] = [place(this.followed[0]), place(this.followed[1] + 1)];
            context.strokeStyle = this.palette.accent;
            context.lineWidth = 2;
            context.beginPath();
            context.moveTo(left, PAIRS.top);
            context.lineTo(left, TICKS.top + 1);
            context.lineTo(right, TICKS.top + 1);
            context.lineTo(right, PAIRS.top);
            context.stroke();
        }

        drawAxis() {
            const ticks = Math.max(2, Math.min(12, this.width / 90));
            const slots = this.scale.ticks(ticks).filter(Number.isInteger);
            const axis = d3.axisBottom(this.scale).tickValues(slots).tickFormat(d3.format("d"));
            this.axis.attr("transform", `translate(0,${this.bottom + 1})`).call(axis);
            const { ports } = this.analysis.run;
            const middle = this.lanesHeight / 2;
            const labels = [
                { text: "pairs", y: PAIRS.top + PAIRS.height / 2 },
                { text: `of ${ports}`, y: PAIRS.top + PAIRS.height / 2 + 14 },
                { text: "outputs", y: OUTPUTS_TOP + middle + 4 },
                { text: "inputs", y: this.inputsTop + middle + 4 },
            ];
            if (this.comparison !== null) {
                labels.push({ text: "differ", y: this.bottom + UNLIKE.top + UNLIKE.height });
            }
            this.labels.selectAll("text").data(labels).join("text")
                .attr("x", MARGIN.left - 8).attr("y", (label) => label.y).attr("text-anchor", "end")
                .attr("font-size", 12).attr("fill", "currentColor").text((label) => label.text);
        }

        drawCursor() {
            const context = viewer.sizeCanvas(this.cursorCanvas, this.width, this.height);
            context.clearRect(0, 0, this.width, this.height);
            const left = this.scale(this.slot);
            const width = Math.max(2, this.scale(this.slot + 1) - left);
            if (left + width < MARGIN.left || left > this.width - MARGIN.right) {
                return;
            }
            context.strokeStyle = this.palette.ink;
            context.lineWidth = 1.5;
            context.strokeRect(left, PAIRS.top - 3, width, this.bottom - PAIRS.top + 6);
        }
    }

    /** A colour as a pixel of an ImageData that is read as 32-bit words. */
    function pixelOf(colour) {
        const bytes = new Uint8ClampedArray([colour.r, colour.g, colour.b, 255]);
        return new Uint32Array(bytes.buffer)[0];
    }

    viewer.Timeline = Timeline;
})(globalThis.SlotViewer = globalThis.SlotViewer || {});
