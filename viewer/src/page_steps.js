// How the page goes from step to step of a slot.
(function (viewer) {
    "use strict";

    Object.assign(viewer.Page.prototype, {
        /** Goes to a step of this slot, or with null to the whole slot. */
        goToStep(step) {
            this.step = step;
            this.goByUser(this.slot);
        },

        /** The names of the steps of this slot, of both runs, in order. */
        stepNames() {
            const panes = this.openPanes.filter(({ view }) => view !== null && view.walker !== null);
            const names = panes.flatMap((pane) => viewer.stepsOf(pane.walker)).map(({ name }) => name);
            return [...new Set(names)].sort((a, b) => viewer.stepOrder(a) - viewer.stepOrder(b));
        },

        /** Goes on by one step, or back: after the last step of a slot comes the first of the next one. */
        moveStep(direction) {
            const names = this.stepNames();
            const order = this.step === null ? direction * -Infinity : viewer.stepOrder(this.step);
            const beyond = names.filter((name) => (viewer.stepOrder(name) - order) * direction > 0);
            if (names.length === 0) {
                this.tell("A slot has steps where a journal is shown.");
            } else if (beyond.length > 0) {
                this.goToStep(direction > 0 ? beyond[0] : beyond[beyond.length - 1]);
            } else if (this.slot + direction >= 0 && this.slot + direction < this.slots) {
                this.step = direction < 0 ? viewer.LAST_STEP : "request";
                this.goByUser(this.slot + direction);
            }
        },
    });
})(globalThis.SlotViewer = globalThis.SlotViewer || {});
