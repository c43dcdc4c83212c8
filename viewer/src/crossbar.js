// The crossbar of a slot: inputs as rows, outputs as columns, matched pairs as closed crosspoints.
(function (viewer) {
    "use strict";

    const { MULTICAST } = viewer;

    const MARGIN = { left: 52, right: 8, top: 8, bottom: 40 };
    const LEAST_LABEL_GAP = 15;
    const LEAST_TEXT_CELL = 22;
    /** A crosspoint is never smaller, though the crossbar is then larger than its room. */
    const LEAST_CELL = 3;
    const MOST_RADIUS = 26;
    const FULL_CIRCLE = 2 * Math.PI;
    const FONT = "system-ui, 'DejaVu Sans', sans-serif";

    /** What a crossbar is to show; `view` is added for each slot. */
    const EMPTY_SCENE = { view: null, step: null, onlyHere: [], unlikeWaits: null, followed: null };

    class Crossbar {
        /** `onSelect` and `onHover` are told the crosspoint under the mouse, the latter also null. */
        constructor(canvas, onSelect, onHover) {
            this.canvas = canvas;
            this.scene = EMPTY_SCENE;
            /** What is shown of rows and pointers: see viewer.defaultSettings(). */
            this.settings = viewer.defaultSettings();
            /** The crosspoint that was chosen, or null. */
            this.selected = null;
            canvas.addEventListener("click", (event) => {
                const found = this.crosspointAt(event.offsetX, event.offsetY);
                if (found !== null) {
                    onSelect(found.input, found.output);
                }
            });
            canvas.addEventListener("mousemove", (event) => onHover(this.crosspointAt(event.offsetX, event.offsetY)));
            canvas.addEventListener("mouseleave", () => onHover(null));
        }

        get view() {
            return this.scene.view;
        }

        crosspointAt(x, y) {
            if (this.view === null) {
                return null;
            }
            const output = Math.floor((x - MARGIN.left) / this.cell);
            const input = Math.floor((y - MARGIN.top) / this.cell);
            const { ports } = this.view;
            return output >= 0 && output < ports && input >= 0 && input < ports ? { input, output } : null;
        }

        /** The side of a crosspoint in a room of pixels. */
        cellIn(room, ports) {
            const across = room.width - MARGIN.left - MARGIN.right;
            const down = room.height - MARGIN.top - MARGIN.bottom;
            return Math.max(LEAST_CELL, Math.min(across, down) / ports);
        }

        /** The width of a crossbar in a room of pixels. */
        widthIn(room, ports) {
            return this.cellIn(room, ports) * ports + MARGIN.left + MARGIN.right;
        }

        /** Draws a scene, as large as its room of pixels allows. */
        draw(scene, palette, room) {
            this.scene = { ...EMPTY_SCENE, ...scene };
            this.palette = palette;
            this.cell = this.cellIn(room, scene.view.ports);
            this.side = this.cell * scene.view.ports;
            this.width = this.side + MARGIN.left + MARGIN.right;
            this.height = this.side + MARGIN.top + MARGIN.bottom;
            this.context = viewer.sizeCanvas(this.canvas, this.width, this.height);
            this.context.clearRect(0, 0, this.width, this.height);
            this.paint();
            this.drawSelection();
        }

        /** The picture of what was drawn last, without the choice, as the text of an SVG file. */
        svg(title) {
            const context = new viewer.SvgContext(this.width, this.height);
            const onCanvas = this.context;
            this.context = context;
            this.paint();
            this.context = onCanvas;
            return context.text(title, this.palette.paper);
        }

        paint() {
            const { view, step, onlyHere, followed } = this.scene;
            this.drawWires();
            if (followed !== null) {
                viewer.drawFollowed(this, followed);
            }
            if (step !== null) {
                viewer.drawStep(this, step);
            } else {
                if (this.settings.rowLevel !== "none") {
                    viewer.drawRows(this);
                }
                this.drawMatch(view.pairs);
                onlyHere.forEach((pair) => this.drawOnlyHere(pair));
                view.differing.forEach((output) => this.drawDifference(output));
                if (view.pointers !== null && this.settings.pointerLevel !== "none") {
                    this.drawPointers(view.pointers, Number(this.settings.pointerLevel));
                }
            }
            this.drawLabels();
        }

        drawMatch(pairs) {
            pairs.forEach((pair) => this.drawPath(pair));
            pairs.forEach((pair) => this.drawCrosspoint(pair));
        }

        /** Marks a pair that the other run does not have: a second ring around its crosspoint. */
        drawOnlyHere({ input, output }) {
            this.context.strokeStyle = this.palette.ink;
            this.context.lineWidth = Math.max(1, Math.min(3, this.cell / 12));
            this.circle(this.x(output), this.y(input), Math.max(4, Math.min(MOST_RADIUS * 1.6, this.cell * 0.44)));
            this.context.stroke();
        }

        get radius() {
            return Math.max(2.5, Math.min(MOST_RADIUS, this.cell * 0.3));
        }

        circle(x, y, radius) {
            this.context.beginPath();
            this.context.moveTo(x + radius, y);
            this.context.arc(x, y, radius, 0, FULL_CIRCLE);
        }

        diamond(x, y, reach) {
            this.polygon([[x, y - reach], [x + reach, y], [x, y + reach], [x - reach, y]]);
        }

        /** The middle of a port's row or column. */
        x(output) {
            return MARGIN.left + (output + 0.5) * this.cell;
        }

        y(input) {
            return MARGIN.top + (input + 0.5) * this.cell;
        }

        line(x1, y1, x2, y2) {
            this.context.beginPath();
            this.context.moveTo(x1, y1);
            this.context.lineTo(x2, y2);
            this.context.stroke();
        }

        drawWires() {
            this.context.strokeStyle = this.palette.grid;
            this.context.lineWidth = 1;
            for (let port = 0; port < this.view.ports; port += 1) {
                this.line(MARGIN.left, this.y(port), MARGIN.left + this.side, this.y(port));
                this.line(this.x(port), MARGIN.top, this.x(port), MARGIN.top + this.side);
            }
        }

        /** The way of a cell: from its input along the row, then down the column to its output. */
        drawPath({ input, output, level, kind }) {
            const { context } = this;
            context.strokeStyle = this.palette.levels[level];
            context.lineWidth = Math.max(1.5, Math.min(4, this.cell / 7));
            context.setLineDash(kind === MULTICAST ? [6, 4] : []);
            context.beginPath();
            context.moveTo(MARGIN.left, this.y(input));
            context.lineTo(this.x(output), this.y(input));
            context.lineTo(this.x(output), MARGIN.top + this.side);
            context.stroke();
            context.setLineDash([]);
        }

        /** A closed crosspoint: a disc for unicast, a diamond for multicast, with its level. */
        drawCrosspoint({ input, output, level, kind }) {
            const { context, radius } = this;
            const x = this.x(output);
            const y = this.y(input);
            context.fillStyle = this.palette.levels[level];
            context.strokeStyle = this.palette.paper;
            context.lineWidth = 1.5;
            if (kind === MULTICAST) {
                this.diamond(x, y, radius * 1.3);
            } else {
                this.circle(x, y, radius);
            }
            context.fill();
            context.stroke();
            if (radius >= 7) {
                context.fillStyle = this.palette.paper;
                context.font = `bold ${radius * 1.2}px ${FONT}`;
                context.textAlign = "center";
                context.textBaseline = "middle";
                context.fillText(level, x, y + 0.5);
            }
        }

        polygon(points) {
            this.context.beginPath();
            points.forEach(([x, y], index) => (index === 0 ? this.context.moveTo(x, y) : this.context.lineTo(x, y)));
            this.context.closePath();
        }

        /** Where the rules feed an output in another way than the journal says. */
        drawDifference(output) {
            const { context } = this;
            const pair = this.view.pairByRules(output);
            context.strokeStyle = this.palette.alarm;
            context.lineWidth = 2;
            context.strokeRect(this.x(output) - this.cell / 2, MARGIN.top, this.cell, this.side);
            if (pair !== null) {
                context.setLineDash([3, 3]);
                this.circle(this.x(output), this.y(pair.input), Math.max(4, this.cell * 0.42));
                context.stroke();
                context.setLineDash([]);
            }
        }

        get pointerSize() {
            return Math.max(2.2, Math.min(13, this.cell * 0.16));
        }

        /** A grant pointer in the column of its output, which points left at an input. */
        grantPointer(output, input) {
            const size = this.pointerSize;
            const x = this.x(output) - this.cell / 2 + (this.cell > LEAST_TEXT_CELL ? 1 : 0);
            const y = this.y(input);
            this.polygon([[x, y], [x + size * 1.3, y - size], [x + size * 1.3, y + size]]);
        }

        /** An accept pointer in the row of its input, which points down at an output. */
        acceptPointer(input, output) {
            const size = this.pointerSize;
            const x = this.x(output);
            const y = this.y(input) + this.cell / 2 - (this.cell > LEAST_TEXT_CELL ? 1 : 0);
            this.polygon([[x, y], [x - size, y - size * 1.3], [x + size, y - size * 1.3]]);
        }

        sharedPointer(input) {
            const x = MARGIN.left - 9;
            const y = this.y(input);
            this.polygon([[x - 6, y], [x, y - 5], [x + 6, y], [x, y + 5]]);
        }

        drawPointers(pointers, level) {
            const { ports } = this.view;
            this.context.fillStyle = this.palette.ink;
            this.context.strokeStyle = this.cell > LEAST_TEXT_CELL ? this.palette.paper : this.palette.ink;
            this.context.lineWidth = this.cell > LEAST_TEXT_CELL ? 1 : 0.5;
            for (let port = 0; port < ports; port += 1) {
                this.grantPointer(port, pointers.grant[level * ports + port]);
                this.fillAndStroke();
                this.acceptPointer(port, pointers.accept[level * ports + port]);
                this.fillAndStroke();
            }
            this.sharedPointer(pointers.shared[level]);
            this.fillAndStroke();
        }

        fillAndStroke() {
            this.context.fill();
            this.context.stroke();
        }

        drawLabels() {
            const { context } = this;
            const step = [1, 2, 4, 8, 16].find((every) => every * this.cell >= LEAST_LABEL_GAP) || 16;
            context.fillStyle = this.palette.faint;
            context.font = `${this.cell > 60 ? 15 : 12}px ${FONT}`;
            for (let port = 0; port < this.view.ports; port += step) {
                context.textAlign = "right";
                context.textBaseline = "middle";
                context.fillText(port, MARGIN.left - 18, this.y(port));
                context.textAlign = "center";
                context.textBaseline = "top";
                context.fillText(port, this.x(port), MARGIN.top + this.side + 4);
            }
            context.fillText("outputs", MARGIN.left + this.side / 2, MARGIN.top + this.side + 22);
            context.save();
            context.translate(2, MARGIN.top + this.side / 2);
            context.rotate(-Math.PI / 2);
            context.fillText("inputs", 0, 0);
            context.restore();
        }

        drawSelection() {
            if (this.selected !== null) {
                const { input, output } = this.selected;
                this.context.strokeStyle = this.palette.accent;
                this.context.lineWidth = 2;
                const left = this.x(output) - this.cell / 2;
                const top = this.y(input) - this.cell / 2;
                this.context.strokeRect(left, top, this.cell, this.cell);
            }
        }
    }

    /** What is shown of a file until the user chooses otherwise. */
    viewer.defaultSettings = () => ({ rowLevel: "all", pointerLevel: "0", squares: "waits", scheduler: "islip", isSchedulerChosen: false });
    viewer.crossbarLook = { MARGIN, LEAST_TEXT_CELL, FONT };
    viewer.Crossbar = Crossbar;
})(globalThis.SlotViewer = globalThis.SlotViewer || {});
