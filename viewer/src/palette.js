// The colours of the page's theme, for drawing on a canvas.
(function (viewer) {
    "use strict";

    const HEAT_STEPS = 256;
    /** The least number over 0 is seen. */
    const LEAST_HEAT = 0.12;

    /** Reads the colours from the style sheet, as they are now. */
    function readPalette() {
        const style = getComputedStyle(document.documentElement);
        const colour = (name) => style.getPropertyValue(`--${name}`).trim();
        const heat = d3.piecewise(d3.interpolateRgb, [colour("paper"), colour("heat-middle"), colour("heat")]);
        const tone = (step) => (step === 0 ? 0 : LEAST_HEAT + (1 - LEAST_HEAT) * step / (HEAT_STEPS - 1));
        return {
            paper: colour("paper"),
            panel: colour("panel"),
            ink: colour("ink"),
            faint: colour("faint"),
            grid: colour("grid"),
            accent: colour("accent"),
            alarm: colour("alarm"),
            /** The opacity of the tint of a queue that has just come, and of one that has waited long. */
            leastTint: Number(colour("least-tint")),
            mostTint: Number(colour("most-tint")),
            levels: [0, 1, 2, 3].map((level) => colour(`level-${level}`)),
            /** Red, green and blue of HEAT_STEPS colours, from none to most. */
            heat: d3.range(HEAT_STEPS).map((step) => d3.rgb(heat(tone(step)))),
        };
    }

    /** Sets the size of a canvas in the page's pixels, sharp on dense screens, and gives its context. */
    function sizeCanvas(canvas, width, height) {
        const density = window.devicePixelRatio || 1;
        canvas.width = Math.round(width * density);
        canvas.height = Math.round(height * density);
        canvas.style.width = `${width}px`;
        canvas.style.height = `${height}px`;
        const context = canvas.getContext("2d");
        context.setTransform(density, 0, 0, density, 0, 0);
        return context;
    }

    /** Draws an image stretched, each of its pixels as a plain rectangle. */
    function stretchImage(context, image, left, top, width, height) {
        const sheet = document.createElement("canvas");
        sheet.width = image.width;
        sheet.height = image.height;
        sheet.getContext("2d").putImageData(image, 0, 0);
        context.imageSmoothingEnabled = false;
        context.drawImage(sheet, left, top, width, height);
    }

    viewer.stretchImage = stretchImage;
    viewer.HEAT_STEPS = HEAT_STEPS;
    viewer.readPalette = readPalette;
    viewer.sizeCanvas = sizeCanvas;
})(globalThis.SlotViewer = globalThis.SlotViewer || {});
