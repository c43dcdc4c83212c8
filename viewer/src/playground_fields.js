// What the user does with the fields and buttons of the playground.
(function (viewer) {
    "use strict";

    const { SCHEDULERS, QUEUES, PATTERNS, MAX_PORTS, FileFault } = viewer;

    const MOST_SEED = 999999999;
    /** So many slots of random requests are written as text, and no longer text is taken from a file. */
    const RANDOM_SLOTS = 100;
    const MOST_TEXT_BYTES = 33554432;
    const NUMBER = /^\d{1,9}$/;

    const by = (id) => document.getElementById(id);

    function within(text, least, most, otherwise) {
        const number = Math.trunc(Number(text));
        return text.trim() === "" || Number.isNaN(number) ? otherwise : Math.max(least, Math.min(most, number));
    }

    function fillLists() {
        const fill = (id, list) => by(id).append(...list.map(({ name, title }) => new Option(title, name)));
        fill("rule", SCHEDULERS);
        fill("queues", QUEUES);
        viewer.fillTraffic();
        fill("pattern", Object.entries(PATTERNS).map(([name, { title }]) => ({ name, title })));
    }

    /** The pattern that is chosen, with the seed and the share of random requests. */
    function chosenPattern() {
        by("seed").value = within(by("seed").value, 0, MOST_SEED, 1);
        by("share").value = within(by("share").value, 0, 100, 50);
        return { name: by("pattern").value, seed: Number(by("seed").value), share: Number(by("share").value) };
    }

    function loadChosen(page) {
        viewer.loadPattern(page.model, chosenPattern());
        page.isNext = true;
    }

    /** Loads random requests anew with another seed or share, where they are chosen. */
    function loadRandom(page) {
        if (chosenPattern().name === "random") {
            loadChosen(page);
        }
    }

    function otherPorts(page, text) {
        const model = page.model.like({ ports: within(text, 1, MAX_PORTS, 1), begin: null, script: viewer.NO_SCRIPT });
        page.matches = [];
        if (model.traffic === null) {
            viewer.loadPattern(model, chosenPattern());
        }
        page.replace(model, `Begun with ${viewer.counted(model.ports, "port")}.`);
    }

    /** The pointers that a text lists, one a port. */
    function readPointers(text, ports, side) {
        const found = text.split(/[\s,]+/).filter(Boolean);
        const isPort = (word) => NUMBER.test(word) && Number(word) < ports;
        if (found.length !== ports || !found.every(isPort)) {
            throw new FileFault(`"${text.trim()}" are no ${side} pointers of ${viewer.counted(ports, "port")}, such as ${d3.range(ports).join(" ")}`);
        }
        return found.map(Number);
    }

    function changeBegin(page) {
        try {
            const { ports } = page.model;
            const begin = { grant: readPointers(by("begin-grant").value, ports, "grant"), accept: readPointers(by("begin-accept").value, ports, "accept") };
            page.change({ begin }, "from these pointers");
        } catch (fault) {
            page.refuse(fault, "The pointers stay");
        }
    }

    function beginFrom(page, makePointer) {
        const list = d3.range(page.model.ports).map(makePointer);
        page.change({ begin: { grant: list, accept: list } }, "from these pointers");
    }

    /** What the fields and lists do when they are changed. */
    const CHANGES = {
        ports: (page, { value }) => otherPorts(page, value),
        rounds: (page, { value }) => page.change({ rounds: within(value, 1, viewer.MAX_ROUNDS, 1) }, "with these rounds"),
        rule: (page, { value }) => page.change({ rule: value }, `by ${viewer.schedulerTitle(value)}`),
        queues: (page, { value }) => page.change({ queues: value }, QUEUES.find(({ name }) => name === value).title),
        pattern: loadChosen,
        seed: loadRandom,
        share: loadRandom,
        shown: () => {},
        "begin-grant": changeBegin,
        "begin-accept": changeBegin,
        ...viewer.TRAFFIC_CHANGES,
    };

    /** What the buttons do. */
    const PRESSES = {
        step: (page) => page.steps(1),
        many: (page) => page.steps(viewer.MANY_SLOTS),
        back: (page) => page.back(),
        again: (page) => page.beginAgain(),
        load: loadChosen,
        link: (page) => page.makeLink(),
        "bring-back": (page) => page.bringBack(),
        "show-last": (page) => { page.isNext = false; },
        "show-next": (page) => { page.isNext = true; },
        "begin-zero": (page) => beginFrom(page, () => 0),
        "begin-apart": (page) => beginFrom(page, (port) => port),
        "script-use": (page) => page.useScript(by("script").value, readAgain()),
        "script-end": (page) => {
            page.matches = [];
            page.replace(page.model.like({ script: viewer.NO_SCRIPT }), "No requests come from a text any more.");
        },
        "script-write": (page) => { by("script").value = viewer.writeScript(page.model); },
        "script-random": (page) => { by("script").value = viewer.randomScript(page.model, RANDOM_SLOTS, chosenPattern()); },
    };

    function readAgain() {
        return by("again-from").value.trim() === "" ? null : within(by("again-from").value, 0, viewer.MOST_SLOTS, 0);
    }

    /** Puts a text file that is dropped on the page where the requests stand as text. */
    async function showDropped(page, file) {
        if (file.size > MOST_TEXT_BYTES) {
            page.tell(`${file.name} is too long for requests as text.`);
            return;
        }
        by("script").value = await file.text();
        by("script-part").open = true;
        page.tell(`The text of ${file.name} stands under "Requests as text".`);
    }

    function watchPlayground(page) {
        fillLists();
        Object.entries(CHANGES).forEach(([id, change]) => by(id).addEventListener("change", ({ target }) => page.act(() => change(page, target))));
        Object.entries(PRESSES).forEach(([id, press]) => by(id).addEventListener("click", () => page.act(() => press(page))));
        by("stop").addEventListener("click", () => {
            if (page.job !== null) {
                page.job.isStopped = true;
            }
        });
        by("play").addEventListener("click", () => page.player.toggle());
        by("playground").addEventListener("input", () => page.player.stop());
        viewer.watchSlider();
        viewer.watchDrops(([file]) => showDropped(page, file));
        by("script-part").addEventListener("toggle", () => showFields(page));
        window.addEventListener("resize", () => page.draw());
        window.addEventListener("hashchange", () => page.openAddress());
        viewer.watchTheme(by("theme"), () => {});
    }

    /** Shows the text of a link, if requests come from one. */
    function showScript(model) {
        if (model.script.lines.length > 0) {
            by("script").value = viewer.scriptAgain(model);
            by("again-from").value = model.script.again === null ? "" : model.script.again;
        }
    }

    /** Shows the settings in their fields. */
    function showFields(page) {
        const { model, isNext } = page;
        by("ports").value = model.ports;
        by("rounds").value = model.rounds;
        by("rule").value = model.rule;
        by("queues").value = model.queues;
        viewer.showTraffic(model);
        ["grant", "accept"].filter((side) => document.activeElement !== by(`begin-${side}`)).forEach((side) => {
            by(`begin-${side}`).value = model.begin[side].join(" ");
        });
        document.querySelectorAll(".of-random").forEach((part) => {
            part.hidden = by("pattern").value !== "random" && !by("script-part").open;
        });
        by("play").setAttribute("aria-pressed", page.player.isPlaying);
        by("back").disabled = model.slot === 0;
        by("script-end").disabled = model.script.lines.length === 0;
        by("show-last").disabled = model.slot === 0;
        by("show-last").textContent = model.slot === 0 ? "no slot yet" : `Slot ${model.slot - 1}, decided`;
        by("show-next").textContent = `Slot ${model.slot}, next`;
        by("show-last").setAttribute("aria-pressed", !isNext);
        by("show-next").setAttribute("aria-pressed", isNext);
    }

    Object.assign(viewer, { within, chosenPattern, watchPlayground, showFields, showScript });
})(globalThis.SlotViewer = globalThis.SlotViewer || {});
