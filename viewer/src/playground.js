// The page of the playground: which playground it shows, and what is done with it.
(function (viewer) {
    "use strict";

    const { Playground, Grid, FileFault, counted } = viewer;

    const MANY_SLOTS = 20;
    const SLOTS_A_SECOND = 8;

    const by = (id) => document.getElementById(id);

    /** A generator that ends with null, once a job is stopped, in place of what another one returns. */
    function* stoppable(generator, job) {
        let step = generator.next();
        while (!step.done) {
            if (job.isStopped) {
                return null;
            }
            yield step.value;
            step = generator.next();
        }
        return step.value;
    }

    function* stepMany(model, count) {
        for (let step = 0; step < count && !model.isFull; step += 1) {
            model.step();
            yield step / count;
        }
        return model;
    }

    class Page {
        constructor(module) {
            this.model = new Playground(module);
            /** What was shown before a new playground began, or null. */
            this.former = null;
            /** Whether the crossbar shows the next slot, and not the last one that is decided. */
            this.isNext = true;
            /** What is being decided, or null. */
            this.job = null;
            /** The matches that the script's text has, by slot. */
            this.matches = [];
            this.player = new viewer.Player((count) => this.advance(count), () => this.draw());
            this.player.speed = SLOTS_A_SECOND;
            this.grid = new Grid(by("crossbar-frame"), (...place) => this.click(...place), (...place) => this.look(...place));
            viewer.loadPattern(this.model, { name: "full" });
            by("decided-by").textContent = decidedBy(module);
            viewer.watchPlayground(this);
        }

        /** Says something of what was done; null says nothing. */
        tell(text) {
            by("told-text").textContent = text || "";
            by("bring-back").hidden = this.former === null;
        }

        // What is done. While slots are decided nothing else is.

        /** Does something, unless slots are being decided. */
        act(deed) {
            this.player.stop();
            if (this.job !== null) {
                this.tell("Slots are being decided: wait, or press Stop.");
            } else {
                this.tell(null);
                deed();
            }
            this.draw();
        }

        /** Runs a generator in slices, and gives what it returns: null where it was stopped. */
        async work(generator, what) {
            const job = { isStopped: false };
            this.job = job;
            const onProgress = (part) => {
                by("stop").hidden = false;
                this.tell(`${what}: ${Math.floor(100 * part)} %.`);
            };
            const found = await viewer.runInSlices(stoppable(generator, job), onProgress, () => false);
            this.job = null;
            by("stop").hidden = true;
            this.tell(null);
            return found;
        }

        async steps(count) {
            const { model } = this;
            await this.work(stepMany(model, count), "Deciding slots");
            this.isNext = model.slot === 0;
            this.tell([model.isFull ? `Here are ${viewer.MOST_SLOTS} slots, the most that the page keeps.` : "", this.unlikeText()].join(" ").trim());
            this.draw();
        }

        /** Goes on while slots are played; says whether there is room for more. */
        advance(count) {
            if (this.job === null) {
                this.steps(count);
            }
            return !this.model.isFull;
        }

        back() {
            if (this.model.slot > 0) {
                this.model.back();
                this.isNext = this.model.slot === 0;
            }
        }

        /** Decides all slots so far again with other settings, and the same requests by hand. */
        async change(changes, what, kept = "with the same requests") {
            const { slot } = this.model;
            const made = await this.work(this.model.like(changes).replay(this.model.allEdits()), "Deciding the slots anew");
            if (made === null) {
                this.tell("Stopped: nothing has changed.");
            } else {
                this.model = made;
                this.tell(slot > 0 ? `${counted(slot, "slot")} decided anew, ${kept}: ${what}. ${this.unlikeText()}`.trim() : null);
            }
            this.draw();
        }

        /** Shows another playground; the slots of the one before can be brought back. */
        replace(model, text) {
            const { slot } = this.model;
            this.former = slot > 0 ? this.model : null;
            this.model = model;
            this.isNext = model.slot === 0;
            this.tell(slot > 0 ? `${text} ${counted(slot, "slot")} of before can be brought back.` : text);
        }

        bringBack() {
            this.model = this.former;
            this.isNext = false;
            this.former = null;
            this.tell(null);
        }

        /** Begins again at slot 0, with the requests as they are; of made traffic with those of slot 0. */
        beginAgain() {
            const { cells, script, traffic } = this.model;
            const model = this.model.like({});
            if (script.lines.length === 0 && traffic === null) {
                cells.forEach((count, place) => model.change(place, count));
            }
            this.replace(model, "Begun again.");
        }

        /** Takes the requests of slots from a text, or says why not. */
        useScript(text, again) {
            try {
                const { ports, rounds, lines, matches } = viewer.readScript(text, this.model.ports);
                if (again !== null && again >= lines.length) {
                    throw new FileFault(`there is no slot ${again} to go on from`);
                }
                const begin = ports === this.model.ports ? this.model.begin : null;
                const changes = { ports, rounds: rounds || this.model.rounds, begin, script: { lines, again }, traffic: null };
                this.matches = matches;
                this.replace(this.model.like(changes), `The requests of ${counted(lines.length, "slot")} are taken.`);
            } catch (fault) {
                this.refuse(fault, "The text is not taken");
            }
        }

        /** Where the first match is that is another than that of the text, in a sentence; "" where there is none. */
        unlikeText() {
            const slot = viewer.firstUnlike(this.model, this.matches);
            return slot < 0 ? "" : `In slot ${slot} the match is another than that of the text.`;
        }

        /** Shows what a link holds, or says why not. */
        async openLink(hash) {
            try {
                const { settings, edits } = viewer.readLink(hash);
                const model = new Playground(this.model.module, settings);
                const made = await this.work(model.replay(edits), "Deciding the slots of the link");
                this.matches = [];
                this.replace(made === null ? model : made, made === null ? "Stopped." : "This is what the link holds.");
                viewer.showScript(model);
            } catch (fault) {
                this.refuse(fault, "Nothing is shown of the link");
            }
            this.draw();
        }

        /** Shows what the address of the page holds, if it holds anything. */
        openAddress() {
            if (window.location.hash.length > 1) {
                this.act(() => this.openLink(window.location.hash));
            }
        }

        makeLink() {
            const link = viewer.writeLink(this.model);
            if (link === null) {
                this.tell(`A link of these slots would have more than ${viewer.MOST_LINK_LETTERS} letters.`);
                return;
            }
            window.history.replaceState(null, "", link);
            this.tell("The address of the page holds all this: copy it.");
        }

        refuse(fault, what) {
            if (!(fault instanceof FileFault)) {
                throw fault;
            }
            this.tell(`${what}: ${fault.message}.`);
        }

        click(input, output, isLess) {
            this.act(() => {
                this.model.click(input, output, isLess);
                this.isNext = true;
            });
            this.look(input, output);
        }

        // What is shown.

        get done() {
            return this.isNext ? null : this.model.last;
        }

        look(input, output) {
            by("crosspoint").textContent = viewer.crosspointText(this.model, this.done, input, output);
        }

        draw() {
            const { model, done } = this;
            const before = done === null ? model.pointers : done.before;
            const after = done === null ? before : done.after;
            viewer.showFields(this);
            this.drawGrid(done, { before, after, none: null }[by("shown").value]);
            by("slot-title").textContent = this.title();
            viewer.showRounds(done === null ? [] : done.rounds);
            viewer.showPointers(model.ports, before, after);
            viewer.showHistory(model);
            viewer.showSums(model);
            if (!this.player.isPlaying) {
                by("spoken").textContent = by("slot-title").textContent;
            }
            this.findRounds(done);
        }

        title() {
            const { model, done } = this;
            if (done !== null) {
                return `Slot ${done.slot}: ${done.count} of ${model.ports} outputs fed`;
            }
            const asked = model.cells.filter((count) => count > 0).length;
            return `Slot ${model.slot}, not decided yet: ${counted(asked, "request")}`;
        }

        drawGrid(done, pointers) {
            const { model } = this;
            const cells = done === null ? model.cells : done.cells;
            const waits = done === null ? (place) => model.waited(place) : (place) => done.waits[place];
            const queues = Array.from(cells, (count, place) => ({ cells: count, wait: waits(place) }));
            this.grid.draw({ ports: model.ports, queues, isCounted: model.isCounted, done, pointers });
        }

        /** Finds what the rounds of the slot that is shown did, and draws them. */
        async findRounds(done) {
            const { model } = this;
            if (done === null || done.rounds !== null || this.finding === done) {
                return;
            }
            this.finding = done;
            const isOver = () => this.finding !== done;
            done.rounds = await viewer.runInSlices(viewer.findRounds(model, done), () => {}, isOver);
            this.finding = null;
            if (this.done === done) {
                this.draw();
            }
        }
    }

    /** Who decides, in words for the page. */
    function decidedBy(module) {
        return module === null
            ? "This browser does not run the proved scheduler, which needs 64-bit WebAssembly memory: each slot is decided by a script, not proved."
            : "Each slot is decided by the proved scheduler.";
    }

    viewer.MANY_SLOTS = MANY_SLOTS;
    viewer.loadModule().then((module) => {
        viewer.playground = new Page(module);
        by("playground").hidden = false;
        viewer.playground.draw();
        viewer.playground.openAddress();
    });
})(globalThis.SlotViewer = globalThis.SlotViewer || {});
