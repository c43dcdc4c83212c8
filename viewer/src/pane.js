// One of the runs that are shown: its crossbar, its slot in words, and its numbers.
(function (viewer) {
    "use strict";

    const MOST_SPOKEN = 8;
    const MOST_OF_A_PASS = 0.99;

    /** What was chosen for a file, by its name and size, so that it is as before when it is opened again. */
    const keptSettings = new Map();

    /** The parts of a run from the page's template; the ids of the second run end with its suffix. */
    function buildParts(suffix) {
        const parts = document.getElementById("run-parts").content.cloneNode(true);
        parts.querySelectorAll("[data-id]").forEach((part) => {
            part.id = part.dataset.id + suffix;
        });
        parts.querySelectorAll("[data-refer]").forEach((part) => {
            part.setAttribute(part.dataset.refer, part.getAttribute(part.dataset.refer) + suffix);
        });
        const [pane, slotText, summary] = parts.children;
        const columns = document.getElementById("columns");
        columns.insertBefore(pane, columns.querySelector(".timeline-part"));
        columns.append(slotText);
        document.getElementById("summaries").append(summary);
    }

    class Pane {
        /** `onSelect` is told the crosspoint that is chosen, and `onChange` that the run has to be drawn. */
        constructor(suffix, onSelect, onChange) {
            this.suffix = suffix;
            /** Whether another run is open, and whether it is compared with this one. */
            this.isPaired = false;
            this.isBeside = false;
            this.onChange = onChange;
            buildParts(suffix);
            this.crossbar = new viewer.Crossbar(this.element("crossbar"), onSelect, (found) => this.hover(found));
            this.hovered = null;
            this.close();
        }

        element(name) {
            return document.getElementById(name + this.suffix);
        }

        close() {
            this.run = null;
            this.name = null;
            this.analysis = null;
            this.isPassing = false;
            this.walker = null;
            this.queues = null;
            /** The packet that is followed, or null. */
            this.followed = null;
            /** The other schedulers that make the run's matches; null while that is not known. */
            this.fitting = null;
            /** The scheduler whose place another took, since it makes all matches, and the first slot that was not its own; or null. */
            this.left = null;
            /** What is drawn of the slot; null before the first drawing of a run. */
            this.view = null;
            this.steps = [];
            this.step = null;
            /** What differs in the slot from the other run, or null. */
            this.beside = null;
            this.showParts();
        }

        get isOpen() {
            return this.run !== null;
        }

        get hasSlots() {
            return this.isOpen && this.run.matches !== null;
        }

        get isJournal() {
            return this.isOpen && this.run.form === "journal";
        }

        /** Shows a run; `key` names its file, whose settings are those of before. */
        show(run, name, key) {
            this.close();
            this.run = run;
            this.name = name;
            this.key = key;
            this.crossbar.selected = null;
            this.crossbar.settings = { ...viewer.defaultSettings(), ...keptSettings.get(key) };
            this.restart();
            this.showParts();
            this.showSettings();
        }

        /** Begins the pass over all slots anew, by the scheduler that is chosen. */
        restart() {
            const { run } = this;
            this.analysis = run.matches === null ? null : new viewer.Analysis(run, this.crossbar.settings.scheduler);
            this.walker = this.isJournal ? new viewer.SlotWalker(run, this.analysis.checkpoints, this.analysis.rule) : null;
            this.fitting = null;
            this.drawSummary();
        }

        /**
         * Makes the pass over all slots, tells how far it is, and stops where another begins. Where the user chose no scheduler
         * and another one makes all matches, that one takes its place.
         */
        async analyse(onProgress) {
            const { analysis } = this;
            if (analysis === null) {
                return;
            }
            const isOpen = !this.crossbar.settings.isSchedulerChosen;
            this.isPassing = true;
            const isCancelled = () => this.analysis !== analysis;
            const found = await viewer.runInSlices(viewer.analyseFitting(analysis, isOpen), onProgress, isCancelled);
            if (isOpen && found !== null && found.length > 0) {
                this.left = { rule: analysis.rule, slot: analysis.differing[0], fitting: found };
                await this.decideBy(found[0], onProgress);
                return;
            }
            this.fitting = found;
            this.isPassing = false;
            onProgress();
            this.drawRules();
        }

        /** How far the pass over all slots is, from 0 to 1; below 1 while it is sought which schedulers make the matches. */
        get progress() {
            return this.isPassing ? Math.min(MOST_OF_A_PASS, this.analysis.done / this.run.slots) : 1;
        }

        /** Decides the slots by another scheduler. */
        async decideBy(name, onProgress) {
            this.set("scheduler", name);
            this.restart();
            this.onRestart();
            await this.analyse(onProgress);
        }

        /** The user chose a scheduler. */
        async chooseScheduler(name, onProgress) {
            this.left = null;
            this.crossbar.settings.isSchedulerChosen = true;
            await this.decideBy(name, onProgress);
        }

        /** Set by the page: the pass over all slots begins anew. */
        onRestart() {}

        /** Puts what the packets file says of the queues beside the run. */
        attach(queues) {
            this.queues = queues;
            this.followed = null;
            this.crossbar.settings.squares = "lengths";
            this.showParts();
            this.showSettings();
            this.onChange();
        }

        // What is shown of it.

        showParts() {
            const hide = (selector, isHidden) => this.element("pane").querySelectorAll(selector).forEach((part) => {
                part.hidden = isHidden;
            });
            hide(".journal-of-pane", !this.isJournal);
            hide(".packets-of-pane", this.queues === null);
            this.element("pane").hidden = !this.hasSlots;
            this.element("slot-text").hidden = !this.hasSlots;
            this.element("summary").hidden = !this.isOpen;
            const shown = { hasRows: this.isJournal, isBeside: this.isBeside, hasQueues: this.queues !== null };
            viewer.drawLegend(this.element("legend"), shown);
        }

        /** Says whether another run is open, so that this one is the first or the second, and whether they are compared. */
        setBeside(isPaired, isCompared) {
            this.isPaired = isPaired;
            this.isBeside = isCompared;
            if (this.isOpen) {
                this.element("crossbar-title").textContent = isPaired ? `${this.name} (${this.place} run)` : this.name;
                this.drawSummary();
            }
            this.showParts();
        }

        get place() {
            return this.suffix === "" ? "first" : "second";
        }

        showSettings() {
            const { rowLevel, pointerLevel, squares, scheduler } = this.crossbar.settings;
            this.element("row-level").value = rowLevel;
            this.element("pointer-level").value = pointerLevel;
            this.element("squares").value = squares;
            this.element("scheduler").value = scheduler;
        }

        set(setting, value) {
            this.crossbar.settings[setting] = value;
            keptSettings.set(this.key, { ...this.crossbar.settings });
            this.showSettings();
            this.onChange();
        }

        /** Goes to a slot, and to the step of this name or the last one before it. */
        seek(slot, stepName) {
            if (this.walker !== null && slot < this.run.slots) {
                this.walker.seek(slot);
            }
            this.view = new viewer.SlotView(this.run, slot, this.walker, this.queues);
            this.steps = stepName === null || this.view.walker === null ? [] : viewer.stepsOf(this.walker);
            const order = stepName === null ? -1 : viewer.stepOrder(stepName);
            const reached = this.steps.filter((step) => viewer.stepOrder(step.name) <= order);
            this.step = reached.length === 0 ? null : reached[reached.length - 1];
            this.wantedStep = stepName;
        }

        draw(palette, room) {
            const { view, step, beside, followed } = this;
            const waitsAt = followed === null ? [] : viewer.waitsAt(view, followed);
            this.crossbar.draw({
                view,
                step,
                onlyHere: beside === null ? [] : beside.here,
                unlikeWaits: beside === null ? null : beside.unlikeWaits,
                followed: waitsAt.length === 0 ? null : { input: followed.input, outputs: waitsAt },
            }, palette, room);
        }

        /** The step, or the slot, in one sentence. */
        headline() {
            const { view, step, wantedStep } = this;
            if (step === null) {
                return viewer.inOneLine(view);
            }
            const isThere = step.name === wantedStep;
            return `Slot ${view.slot}. ${isThere ? "" : "There is no further round here. "}${viewer.stepHeadline(step)}`;
        }

        /** The step with its sentences, or the slot, for a screen reader. */
        spoken() {
            const lines = this.step === null ? [] : viewer.stepLines(this.step).slice(0, MOST_SPOKEN);
            if (this.step === null) {
                return viewer.briefly(this.view);
            }
            return lines.length < 2 ? this.headline() : `${this.headline()} ${lines.join(". ")}.`;
        }

        drawTexts() {
            const { view, step, beside } = this;
            const { pointerLevel } = this.crossbar.settings;
            viewer.drawSlotText(this.element("slot-text"), view, { pointerLevel, step, beside, titleId: `slot-title${this.suffix}` });
            this.element("step-line").textContent = this.headline();
            this.element("decided-by").textContent = this.isJournal ? viewer.decidedHere(this.analysis.rule, this.steps) : "";
            const told = step === null ? viewer.briefly(view) : this.headline();
            this.element("crossbar").setAttribute("aria-label", `Crossbar. ${told} Arrow keys choose a crosspoint.`);
            this.drawCrosspoint();
            viewer.drawPacketButtons(this.element("packets-at"), view, this.crossbar.selected, (packet) => this.follow(packet));
            this.drawFollowed();
        }

        hover(found) {
            const isSame = JSON.stringify(found) === JSON.stringify(this.hovered);
            this.hovered = found;
            if (!isSame && this.view !== null) {
                this.drawCrosspoint();
            }
        }

        drawCrosspoint() {
            const crosspoint = this.hovered || this.crossbar.selected;
            this.element("crosspoint").textContent = crosspoint === null
                ? "Point at a crosspoint, or choose one with the arrow keys in the crossbar, to read what is there."
                : viewer.describeCrosspoint(this.view, crosspoint);
        }

        drawSummary() {
            const heading = { id: `summary-title${this.suffix}`, text: this.isPaired ? `The ${this.place} run` : "The run" };
            viewer.drawSummary(this.element("summary"), this.run, this.analysis, heading);
            this.drawRules();
        }

        /** Whose matches the journal has, with a button for each other scheduler that makes all of them. */
        drawRules() {
            const line = d3.select(this.element("rules-line"));
            line.text(this.isJournal ? viewer.rulesLine(this) : "");
            line.classed("alarm", this.isJournal && this.analysis.differing.length > 0);
            (this.fitting || []).forEach((name) => {
                line.append("button").attr("type", "button").text(`Choose ${viewer.schedulerTitle(name)}`)
                    .on("click", () => this.onRule(name));
            });
        }

        /** Set by the page: the user chose a scheduler. */
        onRule() {}

        // A packet that is followed.

        follow(packet) {
            this.followed = packet;
            this.drawFollowedButtons();
            this.onChange();
        }

        drawFollowed() {
            const { followed, view } = this;
            this.element("followed").hidden = followed === null;
            if (followed !== null) {
                this.element("followed-packet").textContent = viewer.describePacket(followed);
                this.element("followed-place").textContent = viewer.placeText(view, followed);
            }
        }

        /** The buttons of a packet that is followed from now on: where it arrives and where it departs. */
        drawFollowedButtons() {
            const { followed } = this;
            const ends = followed === null ? [] : followed.departures.map((departure, at) => {
                return { text: `To its departure at output ${followed.outputs[at]}`, act: () => this.onGo(departure) };
            });
            const buttons = followed === null ? [] : [
                { text: "To its arrival", act: () => this.onGo(followed.arrival) },
                ...ends,
                { text: "Follow no packet", act: () => this.follow(null) },
            ];
            d3.select(this.element("followed-buttons")).selectAll("button").data(buttons).join("button").attr("type", "button")
                .text(({ text }) => text).on("click", ({ act }) => act());
        }

        /** Set by the page: goes to a slot. */
        onGo() {}
    }

    viewer.Pane = Pane;
})(globalThis.SlotViewer = globalThis.SlotViewer || {});
