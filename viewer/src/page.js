// The page: which runs, which slot and which step it shows.
(function (viewer) {
    "use strict";

    const { element, throttled } = viewer;

    /** While slots are played, the texts follow this often. */
    const TEXT_MS = 120;
    /** Browsers refuse changes of the address that come too often. */
    const ADDRESS_MS = 400;
    const PROGRESS_MS = 300;

    class Page {
        constructor() {
            const onSelect = (input, output) => this.select(input, output);
            this.panes = ["", "-2"].map((suffix) => new viewer.Pane(suffix, onSelect, () => this.onPane()));
            this.slot = 0;
            /** The name of the step that is shown, or null for the whole slot. */
            this.step = null;
            /** The paths of the files that came from the server, as the address has them. */
            this.files = {};
            /** Where the two runs differ, or null. */
            this.comparison = null;
            /** Rises with each file, so that the reading of an older one ends. */
            this.opened = 0;
            this.palette = viewer.readPalette();
            this.dirty = { slot: false, timeline: false, layout: false };
            this.isFramePending = false;
            this.timeline = new viewer.Timeline(element("timeline"), (slot) => this.goByUser(slot));
            this.timeline.onChange = () => this.ask("timeline");
            this.queueChart = new viewer.QueueChart(element("queue-chart"), (slot) => this.goByUser(slot));
            this.player = new viewer.Player((steps) => this.advance(steps), () => this.onPlayerChange());
            this.texts = throttled(TEXT_MS, () => this.drawTexts());
            this.address = throttled(ADDRESS_MS, () => viewer.putIntoAddress(this));
            this.progress = throttled(PROGRESS_MS, () => this.onAnalysed());
            viewer.watchPage(this);
            viewer.watchQueue(this);
            this.openAddress();
        }

        get first() {
            return this.panes[0];
        }

        get second() {
            return this.panes[1];
        }

        /** The run that is shown first. */
        get run() {
            return this.first.run;
        }

        get openPanes() {
            return this.panes.filter((pane) => pane.hasSlots);
        }

        get hasSlots() {
            return this.first.hasSlots;
        }

        /** The slots of the longer run. */
        get slots() {
            return d3.max(this.openPanes, (pane) => pane.run.slots);
        }

        // What is said.

        showFault(text) {
            this.showMessage("fault", text);
        }

        showNotice(text) {
            this.showMessage("notice", text);
        }

        /** Says beside the field what is wrong with the slot that was asked for; null says nothing. */
        tell(text) {
            this.showMessage("slot-fault", text);
        }

        showMessage(id, text) {
            const isHidden = text === null;
            if (element(id).hidden !== isHidden) {
                // What is below it moves.
                this.ask("layout");
            }
            element(id).hidden = isHidden;
            element(id).textContent = text;
        }

        /** Tells a screen reader. */
        say(text) {
            element("spoken").textContent = text;
        }

        // Slots.

        go(slot) {
            this.slot = Math.max(0, Math.min(this.slots - 1, slot));
            this.timeline.reveal(this.slot);
            this.ask("slot");
        }

        /** Goes to a slot that the user chose, which ends the playing and is spoken. */
        goByUser(slot) {
            if (this.hasSlots) {
                this.player.stop();
                this.tell(null);
                this.go(slot);
                this.isSpokenDue = true;
            }
        }

        /** Goes to the slot that the user typed, or says why not. */
        goToTyped(text) {
            const fault = slotFault(text.trim(), this.slots);
            this.tell(fault);
            if (fault === null) {
                this.goByUser(Number(text));
            }
        }

        /** Goes on while slots are played. */
        advance(steps) {
            this.go(this.slot + steps);
            return this.slot + 1 < this.slots;
        }

        onPlayerChange() {
            element("play").textContent = this.player.isPlaying ? "Pause" : "Play";
            if (!this.player.isPlaying && this.hasSlots) {
                this.isSpokenDue = true;
                this.ask("slot");
            }
        }

        togglePlay() {
            if (this.hasSlots) {
                if (!this.player.isPlaying && this.slot + 1 === this.slots) {
                    this.go(0);
                }
                this.player.toggle();
            }
        }

        /** Goes to the next slot of a list, and from the last one to the first. */
        goToNextOf(slots) {
            const next = slots[d3.bisectRight(slots, this.slot)];
            this.goByUser(next === undefined ? slots[0] : next);
        }

        goToNextDifference() {
            const slots = this.openPanes.filter((pane) => pane.isJournal).flatMap((pane) => pane.analysis.differing);
            this.goToNextOf(slots.sort((a, b) => a - b));
        }

        select(input, output) {
            this.openPanes.filter(({ run }) => input < run.ports && output < run.ports).forEach((pane) => {
                pane.crossbar.selected = { input, output };
            });
            this.showQueueAt(input, output);
            this.ask("slot");
        }

        onPane() {
            if (this.hasSlots) {
                this.ask("slot");
                this.ask("timeline");
            }
        }

        // Drawing, once a frame at most.

        ask(part) {
            this.dirty[part] = true;
            if (!this.isFramePending) {
                this.isFramePending = true;
                requestAnimationFrame(() => this.frame());
            }
        }
    }

    /** Why a slot cannot be shown, or null. */
    function slotFault(text, slots) {
        if (!/^\d{1,9}$/.test(text)) {
            return `"${text}" is no slot; the slots are 0 to ${slots - 1}.`;
        }
        return Number(text) < slots ? null : `There is no slot ${Number(text)}; the slots are 0 to ${slots - 1}.`;
    }

    viewer.slotFault = slotFault;
    viewer.Page = Page;
})(globalThis.SlotViewer = globalThis.SlotViewer || {});
