// What the squares of the crossbar show: how long queues wait, or how many cells they have.
(function (viewer) {
    "use strict";

    const { UNICAST, MULTICAST, LEVELS } = viewer;
    const { MARGIN, LEAST_TEXT_CELL, FONT } = viewer.crossbarLook;

    /** A wait of so many slots has the full tint. */
    const DARKEST_WAIT = 1024;
    /** In numbers of a wait that is another in the other run. */
    const UNLIKE = "≠";

    /** Small tints of many crosspoints, drawn as one picture. */
    class Tint {
        constructor(side, colours) {
            this.side = side;
            this.colours = colours.map((colour) => d3.rgb(colour));
            this.image = new ImageData(side, side);
        }

        set(x, y, level, alpha) {
            const { r, g, b } = this.colours[level];
            this.image.data.set([r, g, b, 255 * alpha], 4 * (y * this.side + x));
        }

        draw(context, left, top, side) {
            viewer.stretchImage(context, this.image, left, top, side, side);
        }
    }

    /** Where the squares of the levels stand: of all levels each has a quarter of the cell. */
    class Squares {
        constructor(crossbar) {
            const { cell, settings } = crossbar;
            this.crossbar = crossbar;
            this.isSingle = settings.rowLevel !== "all";
            this.levels = this.isSingle ? [Number(settings.rowLevel)] : d3.range(LEVELS);
            this.parts = this.isSingle ? 1 : 2;
            this.gap = cell < LEAST_TEXT_CELL ? 0 : 2;
            this.size = (cell - 2 * this.gap) / this.parts;
        }

        column(level) {
            return this.isSingle ? 0 : level & 1;
        }

        row(level) {
            return this.isSingle ? 0 : level >> 1;
        }

        left(output, level) {
            return this.crossbar.x(output) - this.crossbar.cell / 2 + this.gap + this.column(level) * this.size;
        }

        top(input, level) {
            return this.crossbar.y(input) - this.crossbar.cell / 2 + this.gap + this.row(level) * this.size;
        }
    }

    /** How strong the tint of a queue is, from its wait. */
    function strength(palette, wait) {
        const part = Math.min(1, Math.log2(1 + (wait || 0)) / Math.log2(DARKEST_WAIT));
        return palette.leastTint + (palette.mostTint - palette.leastTint) * part;
    }

    /** Tints what is posted, stronger the longer it waits, with the wait where there is room. */
    function drawWaits(crossbar) {
        const { view, context, palette, cell } = crossbar;
        const squares = new Squares(crossbar);
        const tint = cell < LEAST_TEXT_CELL ? new Tint(view.ports * squares.parts, palette.levels) : null;
        setNumberFont(crossbar, squares.size);
        view.eachPosted(squares.levels, (input, output, level, kind, wait) => {
            if (tint !== null && kind === UNICAST) {
                const x = output * squares.parts + squares.column(level);
                tint.set(x, input * squares.parts + squares.row(level), level, strength(palette, wait));
            } else {
                drawPosted(crossbar, squares, { input, output, level, kind, wait });
            }
        });
        if (tint !== null) {
            tint.draw(context, MARGIN.left, MARGIN.top, crossbar.side);
        }
        context.globalAlpha = 1;
        drawUnlikeTicks(crossbar, squares);
    }

    function setNumberFont(crossbar, size) {
        crossbar.context.font = `${Math.max(9, Math.min(18, size * 0.4))}px ${FONT}`;
    }

    function drawPosted(crossbar, squares, queue) {
        const { input, output, level, kind, wait } = queue;
        const { context, palette } = crossbar;
        const { size } = squares;
        const x = squares.left(output, level);
        const y = squares.top(input, level);
        context.globalAlpha = strength(palette, wait);
        if (kind === MULTICAST) {
            drawFrame(crossbar, x, y, size, level);
        } else {
            context.fillStyle = palette.levels[level];
            context.fillRect(x, y, size, size);
        }
        const mark = isUnlike(crossbar, queue) ? UNLIKE : "";
        if ((wait > 0 || mark !== "") && size >= LEAST_TEXT_CELL) {
            drawNumber(crossbar, `${mark}${wait}`, x, y, size, kind);
        }
    }

    function drawFrame({ context, palette }, x, y, size, level) {
        const width = Math.max(1, Math.min(6, size / 10));
        context.globalAlpha = 1;
        context.strokeStyle = palette.levels[level];
        context.lineWidth = width;
        context.strokeRect(x + width, y + width, size - 2 * width, size - 2 * width);
    }

    function drawNumber({ context, palette }, text, x, y, size, kind) {
        context.globalAlpha = 1;
        context.fillStyle = palette.ink;
        context.textAlign = "left";
        // The number of a multicast head stands inside its frame, below that of unicast.
        const inset = kind === MULTICAST ? 4 + Math.min(9, size / 7) : 4;
        context.textBaseline = kind === MULTICAST ? "bottom" : "top";
        context.fillText(text, x + inset, kind === MULTICAST ? y + size - inset : y + inset);
    }

    function isUnlike({ scene }, { input, output, level, kind }) {
        return scene.unlikeWaits !== null && scene.unlikeWaits.has(viewer.queueKey(input, output, level, kind));
    }

    /** Where a number has no room, a corner marks a wait that is another in the other run. */
    function drawUnlikeTicks(crossbar, squares) {
        const { context, palette, scene } = crossbar;
        if (scene.unlikeWaits === null || squares.size >= LEAST_TEXT_CELL) {
            return;
        }
        const side = Math.max(1.5, squares.size * 0.35);
        context.fillStyle = palette.ink;
        for (const { input, outputs, level } of scene.unlikeWaits.values()) {
            if (!squares.levels.includes(level)) {
                continue;
            }
            for (const output of outputs) {
                const right = squares.left(output, level) + squares.size;
                const top = squares.top(input, level);
                crossbar.polygon([[right - side, top], [right, top], [right, top + side]]);
                context.fill();
            }
        }
    }

    /** A bar for the cells in each queue, the higher the more, with their number where there is room. */
    function drawLengths(crossbar) {
        const { view } = crossbar;
        const squares = new Squares(crossbar);
        setNumberFont(crossbar, squares.size);
        view.eachLength(squares.levels, (input, output, level, kind, length) => {
            drawBar(crossbar, squares, { input, output, level, kind, length });
        });
        crossbar.context.globalAlpha = 1;
    }

    function drawBar(crossbar, squares, { input, output, level, kind, length }) {
        const { context, palette, view } = crossbar;
        const { size } = squares;
        const x = squares.left(output, level);
        const y = squares.top(input, level);
        const height = Math.max(1.5, size * length / view.queues.deepest);
        context.globalAlpha = palette.mostTint;
        context.fillStyle = palette.levels[level];
        context.fillRect(x, y + size - height, size * (kind === MULTICAST ? 0.5 : 1), height);
        if (kind === MULTICAST) {
            drawFrame(crossbar, x, y, size, level);
        }
        if (size >= LEAST_TEXT_CELL) {
            drawNumber(crossbar, String(length), x, y, size, kind);
        }
    }

    function drawRows(crossbar) {
        if (crossbar.settings.squares === "lengths" && crossbar.view.queues !== null) {
            drawLengths(crossbar);
        } else if (crossbar.view.rows !== null) {
            drawWaits(crossbar);
        }
    }

    /** A frame of two lines around the crosspoints of a packet that is followed, while it waits. */
    function drawFollowed(crossbar, { input, outputs }) {
        const { context, palette, cell } = crossbar;
        context.strokeStyle = palette.accent;
        context.lineWidth = Math.max(1, Math.min(3, cell / 20));
        for (const output of outputs) {
            for (const inset of [1, Math.min(7, Math.max(3, cell / 12))]) {
                const size = Math.max(1, cell - 2 * inset);
                context.strokeRect(crossbar.x(output) - size / 2, crossbar.y(input) - size / 2, size, size);
            }
        }
    }

    viewer.drawRows = drawRows;
    viewer.drawFollowed = drawFollowed;
})(globalThis.SlotViewer = globalThis.SlotViewer || {});
