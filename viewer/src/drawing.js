// Draws what the page shows, after the page has been asked for it.
(function (viewer) {
    "use strict";

    const { element, plural } = viewer;

    Object.assign(viewer.Page.prototype, {
        frame() {
            this.isFramePending = false;
            const { dirty } = this;
            this.dirty = { slot: false, timeline: false, layout: false };
            if (!this.hasSlots) {
                return;
            }
            if (dirty.layout) {
                this.layOut();
            }
            if (dirty.slot || dirty.layout) {
                this.drawSlot();
            }
            if (dirty.timeline || dirty.layout) {
                this.timeline.followed = this.followedSpan();
                this.timeline.draw(this.palette);
                this.drawScaleText();
            } else if (dirty.slot) {
                this.timeline.drawCursor();
            }
            this.drawQueue();
        },

        layOut() {
            const frames = this.openPanes.map((pane) => pane.element("crossbar-frame"));
            this.room = viewer.crossbarRoom(element("columns"), document.querySelector(".controls"), frames);
            const width = this.openPanes.reduce((sum, pane) => sum + pane.crossbar.widthIn(this.room, pane.run.ports), 0);
            element("columns").style.setProperty("--crossbars", `${Math.ceil(width)}px`);
            this.timeline.layOut();
        },

        drawSlot() {
            this.openPanes.forEach((pane) => pane.seek(this.slot, this.step));
            this.comparePanes();
            this.openPanes.forEach((pane) => pane.draw(this.palette, this.room));
            this.address.later();
            if (this.player.isPlaying) {
                this.texts.later();
            } else {
                this.texts.now();
            }
        },

        /** What of the slot is in one run alone, and which waits differ. */
        comparePanes() {
            const { first, second, comparison } = this;
            if (comparison === null) {
                this.panes.forEach((pane) => {
                    pane.beside = null;
                });
                return;
            }
            const here = viewer.pairsOnlyIn(first.view, second.view);
            const there = viewer.pairsOnlyIn(second.view, first.view);
            const unlikeWaits = first.isJournal && second.isJournal ? viewer.waitsThatDiffer(first.view, second.view) : null;
            first.beside = { here, there, unlikeWaits };
            second.beside = { here: there, there: here, unlikeWaits: viewer.seenFromThere(unlikeWaits) };
        },

        drawTexts() {
            if (!this.hasSlots || this.first.view === null) {
                return;
            }
            this.openPanes.forEach((pane) => pane.drawTexts());
            element("timeline").setAttribute("aria-valuenow", this.slot);
            element("timeline").setAttribute("aria-valuetext", viewer.briefly(this.first.view));
            element("whole-slot").disabled = this.step === null;
            if (document.activeElement !== element("slot")) {
                element("slot").value = this.slot;
            }
            if (this.isSpokenDue) {
                this.isSpokenDue = false;
                this.say(this.openPanes.map((pane) => pane.spoken()).join(" Beside it: "));
            }
        },

        /** From which slot to which a followed packet is in the switch, or null. */
        followedSpan() {
            const pane = this.openPanes.find(({ followed }) => followed !== null);
            if (pane === undefined) {
                return null;
            }
            const { arrival, departures } = pane.followed;
            return [arrival, departures.length === 0 ? arrival : d3.max(departures)];
        },

        drawScaleText() {
            const data = this.timeline.laneData();
            const [from, to] = this.timeline.seen();
            const range = `Slots ${Math.floor(from)} to ${Math.ceil(to) - 1} are seen.`;
            const orMore = data.most === data.outputs.most ? " or more" : "";
            const tone = data.isShare
                ? "The strongest tone is a port that is matched in every slot."
                : `The strongest tone is a unicast queue of the port that has waited ${plural(data.most, "slot")}${orMore}.`;
            const { comparison } = this;
            const unlike = comparison === null ? "" : ` The lanes are of the first run. The runs differ in ${plural(comparison.differing.length, "slot")}, `
                + "marked by ticks below the axis.";
            element("timeline-scale").textContent = `${range} ${tone}${unlike}`;
        },

        onTheme() {
            this.palette = viewer.readPalette();
            this.ask("layout");
        },
    });

    viewer.loadModule().then((module) => {
        viewer.provedModule = module;
        viewer.page = new viewer.Page();
    });
})(globalThis.SlotViewer = globalThis.SlotViewer || {});
