// How the page opens files, and goes through the slots of their runs.
(function (viewer) {
    "use strict";

    const { element, plural, MAX_LISTED_SLOTS } = viewer;

    Object.assign(viewer.Page.prototype, {
        /** Shows files, or says why they cannot be shown; what was shown before then stays. */
        async open(files, isBeside = false, paths = {}) {
            this.opened += 1;
            const mine = this.opened;
            const isCancelled = () => this.opened !== mine;
            this.showFault(null);
            this.showNotice(`Reading ${files.map(({ name }) => name).join(" and ")}.`);
            try {
                const onProgress = (name, part) => this.showNotice(`Reading ${name}: ${percent(part)}.`);
                const read = await viewer.readAll(files, onProgress, isCancelled);
                if (!isCancelled()) {
                    await this.showAll(viewer.sortFiles(read), isBeside, paths, isCancelled);
                }
            } catch (fault) {
                this.onFault(fault, isCancelled);
            }
        },

        onFault(fault, isCancelled) {
            if (isCancelled()) {
                return;
            }
            this.onAnalysed();
            this.showFault(`${fault.message}.`);
            if (!(fault instanceof viewer.FileFault)) {
                throw fault;
            }
        },

        /** Shows runs that were read, and puts packets files beside them; a second run stays where no address names the files. */
        async showAll({ runs, packets }, isBeside, paths, isCancelled) {
            this.player.stop();
            const target = isBeside && this.hasSlots && runs.length === 1 ? 1 : 0;
            const shown = runs.slice(0, 2).map(({ content, name, key }, index) => {
                const pane = this.panes[target + index];
                pane.show(content, name, key);
                return pane;
            });
            const isAlone = paths.file !== undefined && paths.beside === undefined;
            if (isAlone || (shown.length === 2 && !this.hasSlots)) {
                this.second.close();
            }
            if (shown.length > 0) {
                this.files = target === 0 ? paths : {};
                this.onRuns(target === 0);
            }
            const passes = Promise.all(shown.map((pane) => pane.analyse(() => this.progress.later())));
            for (const one of packets) {
                await viewer.attachPackets(this.panes, one, isCancelled).catch((fault) => this.onFault(fault, isCancelled));
            }
            this.onAnalysed();
            await passes;
            this.progress.now();
        },

        /** Opens files from the server, named as an address names them, with the schedulers and the level of pointers that it names. */
        async openPaths({ files: paths, schedulers = [], pointers = null }) {
            try {
                const files = [];
                for (const path of Object.values(paths)) {
                    files.push(await viewer.fetchFile(path));
                }
                await this.open(files, false, paths);
                if (pointers !== null) {
                    this.openPanes.forEach((pane) => pane.set("pointerLevel", pointers));
                }
                for (const [index, name] of schedulers.entries()) {
                    if (name !== null && this.panes[index].isJournal) {
                        await this.chooseScheduler(this.panes[index], name);
                    }
                }
            } catch (fault) {
                this.onFault(fault, () => false);
            }
        },

        /** Opens an example at its first slot. */
        async openExample(example) {
            viewer.putIntoAddress({ slot: 0, step: null, files: example.files });
            await this.openPaths(example);
        },

        /** Opens the files of the address, if it names any. */
        openAddress(hash) {
            const address = viewer.readAddress(hash);
            if (address.files.file !== undefined) {
                this.openPaths(address);
            }
        },

        /** Follows an address that has changed, to this; the page may have put its own there since. */
        onAddress(hash) {
            const { slot, step, files } = viewer.readAddress(hash);
            if (files.file !== undefined && JSON.stringify(files) !== JSON.stringify(this.files)) {
                this.openAddress(hash);
            } else if (slot !== null && this.hasSlots) {
                this.step = this.panes.some((pane) => pane.isJournal) ? step : null;
                this.goToTyped(String(slot));
            }
        },

        /** After the runs that are shown have changed. */
        onRuns(isFirst) {
            const { first, second } = this;
            element("welcome").hidden = true;
            element("run").hidden = false;
            const titles = this.panes.filter((pane) => pane.isOpen).map(titleOf);
            element("file-line").textContent = titles.join(" Beside it ");
            document.title = `${first.name}${second.isOpen ? ` and ${second.name}` : ""} - Slot viewer`;
            element("close-second").hidden = !second.isOpen;
            element("columns").classList.toggle("two", this.openPanes.length === 2);
            const showAll = (selector, isShown) => document.querySelectorAll(selector).forEach((part) => {
                part.hidden = !isShown;
            });
            showAll(".controls, .columns, .timeline-part", this.hasSlots);
            showAll(".journal-only", this.panes.some((pane) => pane.isJournal));
            const canCompare = this.openPanes.length === 2 && first.run.ports === second.run.ports;
            this.comparison = canCompare ? new viewer.Comparison(first.run, second.run) : null;
            this.panes.forEach((pane) => pane.setBeside(second.isOpen, canCompare));
            element("next-difference").hidden = true;
            element("next-unlike").hidden = !canCompare || this.comparison.differing.length === 0;
            this.say(titles.join(" "));
            if (this.hasSlots) {
                this.showSlots(isFirst);
            }
        },

        showSlots(isFirst) {
            element("timeline").setAttribute("aria-valuemax", this.slots - 1);
            this.timeline.open(this.first.analysis, this.slots, this.comparison);
            if (isFirst) {
                const { slot, step } = viewer.readAddress();
                this.step = this.first.isJournal ? step : null;
                this.tell(slot === null ? null : viewer.slotFault(slot, this.slots));
                this.go(slot === null ? 0 : slot);
            } else {
                this.go(this.slot);
            }
            this.ask("layout");
        },

        closeSecond() {
            this.second.close();
            this.onRuns(false);
            this.onAnalysed();
        },

        /** Decides the slots of a run by the scheduler that the user, or the address, names. */
        async chooseScheduler(pane, name) {
            await pane.chooseScheduler(name, () => this.progress.later());
            this.progress.now();
        },

        /** After the pass over the slots of a run has begun anew. */
        onRestart(pane) {
            if (pane === this.first) {
                this.timeline.analysis = pane.analysis;
            }
            this.go(this.slot);
            this.ask("timeline");
        },

        /** Shows how far the passes over all slots are. */
        onAnalysed() {
            const done = this.hasSlots ? d3.min(this.openPanes, ({ progress }) => progress) : 1;
            this.showNotice(done < 1 ? `Going through all slots: ${percent(done)}.` : noticeOf(this.panes));
            if (!this.hasSlots) {
                return;
            }
            const isDiffering = (pane) => pane.isJournal && pane.analysis.differing.length > 0;
            element("next-difference").hidden = !this.openPanes.some(isDiffering);
            this.openPanes.filter((pane) => pane.isJournal).forEach((pane) => {
                pane.drawSummary();
                if (pane.view !== null && !pane.view.isComplete && !pane.view.isEnded) {
                    this.ask("slot");
                }
            });
            this.ask("timeline");
        },
    });

    function titleOf({ run, name }) {
        return `${name}: a ${run.form} of ${plural(run.ports, "port")} and ${plural(run.slots, "slot")}.`;
    }

    /** What has to be said of the runs that are shown, or null. */
    function noticeOf(panes) {
        const bare = panes.find((pane) => pane.isOpen && !pane.hasSlots);
        if (bare !== undefined && bare.run.slots > MAX_LISTED_SLOTS) {
            return `${bare.name} is of a long run, which has no slots to step through.`;
        }
        if (bare !== undefined) {
            return `${bare.name} has no slot lines, so there is no slot to see: write them with tiny_tera run --slots.`;
        }
        const [first, second] = panes;
        return second.isOpen && first.run.ports !== second.run.ports
            ? `The runs have ${first.run.ports} and ${second.run.ports} ports, so their slots are not compared.`
            : null;
    }

    function percent(part) {
        return `${Math.floor(100 * part)} %`;
    }
})(globalThis.SlotViewer = globalThis.SlotViewer || {});
