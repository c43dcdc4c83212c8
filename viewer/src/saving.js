// Saves the crossbar of a slot as a picture.
(function (viewer) {
    "use strict";

    /** Has the browser save bytes under a name. */
    function save(blob, name) {
        const link = document.createElement("a");
        link.href = URL.createObjectURL(blob);
        link.download = name;
        link.click();
        setTimeout(() => URL.revokeObjectURL(link.href), 0);
    }

    /** "out.journal.slot_6.grant": the run's file, the slot and the step. */
    function pictureName(pane) {
        const { view, step } = pane;
        return [pane.name, `slot_${view.slot}`].concat(step === null ? [] : [step.name]).join(".");
    }

    function pictureTitle(pane) {
        const { view, step } = pane;
        return `${pane.name}, slot ${view.slot}${step === null ? "" : `, ${viewer.stepTitle(step)}`}`;
    }

    function saveSvg(pane) {
        const text = pane.crossbar.svg(pictureTitle(pane));
        save(new Blob([text], { type: "image/svg+xml" }), `${pictureName(pane)}.svg`);
    }

    function savePng(pane) {
        const { canvas } = pane.crossbar;
        const sheet = document.createElement("canvas");
        sheet.width = canvas.width;
        sheet.height = canvas.height;
        const context = sheet.getContext("2d");
        context.fillStyle = pane.crossbar.palette.paper;
        context.fillRect(0, 0, sheet.width, sheet.height);
        context.drawImage(canvas, 0, 0);
        sheet.toBlob((blob) => save(blob, `${pictureName(pane)}.png`), "image/png");
    }

    viewer.saveSvg = saveSvg;
    viewer.savePng = savePng;
})(globalThis.SlotViewer = globalThis.SlotViewer || {});
