// The crossbar of the playground: inputs are rows, outputs are columns; a click asks or stops asking.
(function (viewer) {
    "use strict";

    const MOST_CELL = 180;
    const LEAST_CELL = 9;
    const LEAST_HEIGHT = 280;
    const MARGIN = 34;
    /** Below the crossbar stands what is told of a crosspoint. */
    const FOOT = 56;
    /** From so many pixels on a crosspoint has room for the number of a round, and for those of its queue. */
    const TEXT_CELL = 22;
    const QUEUE_CELL = 34;
    const MOST_FONT = 20;
    const LEAST_FONT = 11;
    const ROUND_FONT = 14;
    /** The tint of a request is the strongest from so many slots on. */
    const LONG_WAIT = 64;

    class Grid {
        /**
         * `onClick` is told the input and output of a crosspoint that is clicked, or chosen by the keyboard, and whether a cell is
         * taken, with the shift or the delete key; `onLook` where the mouse or the keyboard is.
         */
        constructor(frame, onClick, onLook) {
            this.frame = frame;
            this.onClick = onClick;
            this.onLook = onLook;
            this.cursor = { input: 0, output: 0 };
            this.svg = d3.select(frame).append("svg").attr("id", "crossbar").attr("tabindex", 0)
                .attr("role", "application").attr("aria-roledescription", "crossbar").attr("aria-describedby", "crosspoint");
            this.layers = ["cells", "labels", "queues", "grants", "pairs", "pointers", "cursor"]
                .reduce((layers, name) => ({ ...layers, [name]: this.svg.append("g").attr("class", name) }), {});
            this.svg.on("click", () => this.click(this.pointed(), d3.event.shiftKey));
            this.svg.on("mousemove", () => this.look(this.pointed()));
            this.svg.on("keydown", () => this.press(d3.event));
        }

        /** The left or top edge of a port. */
        edge(port) {
            return MARGIN + port * this.cell;
        }

        middle(port) {
            return this.edge(port) + this.cell / 2;
        }

        /** The crosspoint at the mouse pointer, or null. */
        pointed() {
            const [output, input] = d3.mouse(this.svg.node()).map((pixel) => Math.floor((pixel - MARGIN) / this.cell));
            return Math.min(input, output) >= 0 && Math.max(input, output) < this.ports ? { input, output } : null;
        }

        click(crosspoint, isLess) {
            if (crosspoint !== null) {
                this.cursor = crosspoint;
                this.onClick(crosspoint.input, crosspoint.output, isLess);
            }
        }

        look(crosspoint) {
            if (crosspoint !== null) {
                this.onLook(crosspoint.input, crosspoint.output);
            }
        }

        press(event) {
            const moves = { ArrowLeft: [0, -1], ArrowRight: [0, 1], ArrowUp: [-1, 0], ArrowDown: [1, 0] };
            if (event.key in moves) {
                const within = (port) => Math.min(this.ports - 1, Math.max(0, port));
                const [down, right] = moves[event.key];
                this.cursor = { input: within(this.cursor.input + down), output: within(this.cursor.output + right) };
                this.drawCursor();
                this.onLook(this.cursor.input, this.cursor.output);
            } else if ([" ", "Enter", "Delete", "Backspace"].includes(event.key)) {
                this.click(this.cursor, event.shiftKey || event.key === "Delete" || event.key === "Backspace");
            } else {
                return;
            }
            event.preventDefault();
            event.stopPropagation();
        }

        /** The side of a crosspoint, from the width of the frame and the height that is left of the window. */
        side(ports) {
            const top = this.frame.getBoundingClientRect().top + window.scrollY;
            const isNarrow = window.matchMedia("(max-width: 60rem)").matches;
            const height = isNarrow ? window.innerHeight : window.innerHeight - top - FOOT;
            const room = Math.min(this.frame.clientWidth, Math.max(LEAST_HEIGHT, height)) - MARGIN - 2;
            return Math.max(LEAST_CELL, Math.min(MOST_CELL, Math.floor(room / ports)));
        }

        /**
         * Draws the queues of a slot, by place with their cells and waits, what was done in it or null, and pointers or null;
         * `isCounted` says whether the cells are told.
         */
        draw({ ports, queues, isCounted, done, pointers }) {
            this.ports = ports;
            this.cell = this.side(ports);
            const size = MARGIN + ports * this.cell + 2;
            this.svg.attr("width", size).attr("height", size).attr("aria-label", `Crossbar of ${ports} inputs and ${ports} outputs`);
            this.svg.classed("small", this.cell < TEXT_CELL);
            this.drawCells(queues);
            this.drawLabels();
            this.drawQueues(queues, isCounted);
            this.drawGrants(done === null ? [] : refusedGrants(done));
            this.drawPairs(done === null ? [] : matchedPairs(done));
            this.drawPointers(pointers);
            this.drawCursor();
        }

        /** Draws the crosspoints: of many ports only those that are other than before, so that a click is seen at once. */
        drawCells(queues) {
            const age = d3.scaleSymlog().domain([0, LONG_WAIT]).clamp(true);
            const rects = this.layers.cells.selectAll("rect").data(queues).join("rect");
            const shape = `${this.ports} ${this.cell}`;
            const looks = queues.map(({ cells, wait }) => (cells > 0 ? age(wait) : -1));
            if (shape !== this.shape) {
                rects.attr("x", (_, at) => this.edge(at % this.ports)).attr("y", (_, at) => this.edge(Math.floor(at / this.ports)))
                    .attr("width", this.cell).attr("height", this.cell);
                this.looks = [];
            }
            rects.filter((_, at) => looks[at] !== this.looks[at])
                .attr("class", ({ cells }) => (cells > 0 ? "asked" : "idle"))
                .style("--age", ({ wait }) => age(wait));
            this.shape = shape;
            this.looks = looks;
        }

        drawLabels() {
            const every = Math.ceil(14 / this.cell);
            const shown = d3.range(0, this.ports, every).flatMap((port) => [
                { text: port, x: this.middle(port), y: MARGIN - 8, anchor: "middle" },
                { text: port, x: MARGIN - 8, y: this.middle(port) + 4, anchor: "end" },
            ]);
            this.layers.labels.selectAll("text").data(shown).join("text").attr("x", ({ x }) => x).attr("y", ({ y }) => y)
                .attr("text-anchor", ({ anchor }) => anchor).text(({ text }) => text);
        }

        /** Beside a crosspoint: above for how many slots its queue has waited, below how many cells are in it. */
        drawQueues(queues, isCounted) {
            const font = Math.max(LEAST_FONT, Math.min(MOST_FONT, Math.round(0.2 * this.cell)));
            const told = queues.flatMap(({ cells, wait }, at) => {
                const [input, output] = [Math.floor(at / this.ports), at % this.ports];
                const x = this.edge(output) + 3;
                return [
                    { kind: "wait", text: wait, x, y: this.edge(input) + font, isTold: wait > 0 },
                    { kind: "cells", text: `${cells}▮`, x, y: this.edge(input) + this.cell - 4, isTold: isCounted && cells > 0 },
                ].filter(({ isTold }) => isTold);
            });
            this.layers.queues.selectAll("text").data(this.cell >= QUEUE_CELL ? told : []).join("text")
                .attr("class", ({ kind }) => kind).attr("x", ({ x }) => x).attr("y", ({ y }) => y).attr("font-size", font)
                .text(({ text }) => text);
        }

        drawGrants(grants) {
            this.layers.grants.selectAll("circle").data(grants).join("circle")
                .attr("cx", ({ output }) => this.middle(output)).attr("cy", ({ input }) => this.middle(input)).attr("r", this.radius);
        }

        get radius() {
            return (this.cell >= QUEUE_CELL ? 0.27 : 0.36) * this.cell;
        }

        drawPairs(pairs) {
            this.layers.pairs.selectAll("circle").data(pairs).join("circle")
                .attr("cx", ({ output }) => this.middle(output)).attr("cy", ({ input }) => this.middle(input)).attr("r", this.radius);
            this.layers.pairs.selectAll("text").data(this.cell >= TEXT_CELL ? pairs : []).join("text")
                .attr("x", ({ output }) => this.middle(output)).attr("y", ({ input }) => this.middle(input))
                .attr("dominant-baseline", "central").attr("font-size", Math.max(ROUND_FONT, Math.round(0.22 * this.cell)))
                .attr("text-anchor", "middle").text(({ round }) => round);
        }

        /** A grant pointer points left, in the column of its output; an accept pointer points down, in the row of its input. */
        drawPointers(pointers) {
            const size = Math.max(4, 0.2 * this.cell);
            const half = size / 1.6;
            const left = `M0,0L${size},${-half}V${half}Z`;
            const down = `M0,0L${-half},${-size}H${half}Z`;
            const found = pointers === null ? [] : d3.range(this.ports).flatMap((port) => [
                { kind: "grant", x: this.edge(port) + this.cell - size - 1, y: this.middle(pointers.grant[port]), path: left },
                { kind: "accept", x: this.middle(pointers.accept[port]), y: this.edge(port) + size + 1, path: down },
            ]);
            this.layers.pointers.selectAll("path").data(found).join("path").attr("class", ({ kind }) => kind)
                .attr("transform", ({ x, y }) => `translate(${x},${y})`).attr("d", ({ path }) => path);
        }

        drawCursor() {
            const { input, output } = this.cursor;
            const seen = input < this.ports && output < this.ports ? [this.cursor] : [];
            this.layers.cursor.selectAll("rect").data(seen).join("rect").attr("x", this.edge(output)).attr("y", this.edge(input))
                .attr("width", this.cell).attr("height", this.cell);
        }
    }

    /** The matched pairs of a slot, each with the number of its round, "" while that is not known. */
    function matchedPairs({ rounds, inputs }) {
        if (rounds === null) {
            return viewer.pairsOfInputs(inputs).map((pair) => ({ ...pair, round: "" }));
        }
        return rounds.flatMap(({ accepts }, at) => accepts.map((pair) => ({ ...pair, round: at + 1 })));
    }

    /** The grants of a slot that no input accepted, as far as they are known. */
    function refusedGrants({ rounds, inputs }) {
        return (rounds || []).flatMap(({ grants }) => grants).filter(({ input, output }) => inputs[output] !== input);
    }

    viewer.matchedPairs = matchedPairs;
    viewer.Grid = Grid;
})(globalThis.SlotViewer = globalThis.SlotViewer || {});
