// What a drawing on a canvas would be, as the text of an SVG picture.
(function (viewer) {
    "use strict";

    function escaped(text) {
        return String(text).replace(/&/g, "&amp;").replace(/</g, "&lt;").replace(/>/g, "&gt;").replace(/"/g, "&quot;");
    }

    function place(value) {
        return String(Math.round(value * 100) / 100);
    }

    const ANCHORS = { left: "start", center: "middle", right: "end" };
    const BASELINES = { top: "hanging", middle: "central", bottom: "text-after-edge", alphabetic: "alphabetic" };

    /** Has the calls and settings of a canvas's context that the crossbar uses, and keeps what they draw. */
    class SvgContext {
        constructor(width, height) {
            this.width = width;
            this.height = height;
            this.parts = [];
            this.path = "";
            this.dash = [];
            this.turns = [""];
            this.fillStyle = "#000";
            this.strokeStyle = "#000";
            this.lineWidth = 1;
            this.globalAlpha = 1;
            this.font = "10px sans-serif";
            this.textAlign = "left";
            this.textBaseline = "alphabetic";
        }

        add(tag, attributes, text = "") {
            const turn = this.turns[this.turns.length - 1];
            const all = { ...attributes, ...(turn === "" ? {} : { transform: turn }), ...(this.globalAlpha === 1 ? {} : { opacity: this.globalAlpha }) };
            const words = Object.entries(all).map(([name, value]) => ` ${name}="${escaped(value)}"`).join("");
            this.parts.push(`<${tag}${words}>${escaped(text)}</${tag}>`);
        }

        strokeWords() {
            const words = { fill: "none", stroke: this.strokeStyle, "stroke-width": place(this.lineWidth) };
            return this.dash.length === 0 ? words : { ...words, "stroke-dasharray": this.dash.join(" ") };
        }

        save() {
            this.turns.push(this.turns[this.turns.length - 1]);
        }

        restore() {
            this.turns.pop();
        }

        turn(words) {
            this.turns.push(`${this.turns.pop()} ${words}`.trim());
        }

        translate(x, y) {
            this.turn(`translate(${place(x)} ${place(y)})`);
        }

        rotate(angle) {
            this.turn(`rotate(${place(angle * 180 / Math.PI)})`);
        }

        setLineDash(dash) {
            this.dash = dash;
        }

        clearRect() {
            this.parts = [];
        }

        beginPath() {
            this.path = "";
        }

        moveTo(x, y) {
            this.path += `M${place(x)} ${place(y)}`;
        }

        lineTo(x, y) {
            this.path += `L${place(x)} ${place(y)}`;
        }

        /** A whole circle; the crossbar draws no other arcs. */
        arc(x, y, radius) {
            const r = place(radius);
            this.path += `M${place(x - radius)} ${place(y)}a${r} ${r} 0 1 0 ${place(2 * radius)} 0a${r} ${r} 0 1 0 ${place(-2 * radius)} 0Z`;
        }

        closePath() {
            this.path += "Z";
        }

        fill() {
            this.add("path", { d: this.path, fill: this.fillStyle });
        }

        stroke() {
            this.add("path", { d: this.path, ...this.strokeWords() });
        }

        rectWords(x, y, width, height) {
            return { x: place(x), y: place(y), width: place(width), height: place(height) };
        }

        fillRect(x, y, width, height) {
            this.add("rect", { ...this.rectWords(x, y, width, height), fill: this.fillStyle });
        }

        strokeRect(x, y, width, height) {
            this.add("rect", { ...this.rectWords(x, y, width, height), ...this.strokeWords() });
        }

        fillText(text, x, y) {
            const [, weight, size, family] = /^(bold )?([\d.]+px) (.*)$/.exec(this.font);
            this.add("text", {
                x: place(x), y: place(y), fill: this.fillStyle, "font-size": size, "font-family": family,
                "font-weight": weight === undefined ? "normal" : "bold",
                "text-anchor": ANCHORS[this.textAlign], "dominant-baseline": BASELINES[this.textBaseline],
            }, text);
        }

        drawImage(sheet, x, y, width, height) {
            const words = { ...this.rectWords(x, y, width, height), preserveAspectRatio: "none", style: "image-rendering: pixelated" };
            this.add("image", { href: sheet.toDataURL(), ...words });
        }

        /** The picture as a file, with a title and on a ground of one colour. */
        text(title, ground) {
            const { width, height } = this;
            return `<svg xmlns="http://www.w3.org/2000/svg" width="${place(width)}" height="${place(height)}" `
                + `viewBox="0 0 ${place(width)} ${place(height)}">\n<title>${escaped(title)}</title>\n`
                + `<rect width="100%" height="100%" fill="${escaped(ground)}"></rect>\n${this.parts.join("\n")}\n</svg>\n`;
        }
    }

    viewer.SvgContext = SvgContext;
})(globalThis.SlotViewer = globalThis.SlotViewer || {});
