// What the user does with the page's buttons, lists and fields.
(function (viewer) {
    "use strict";

    const element = (id) => document.getElementById(id);

    const NUMBER = /^\d{1,9}$/;

    /** Puts the levels into a list, before its last entry. */
    function addLevels(list) {
        const options = Array.from({ length: viewer.LEVELS }, (_, level) => new Option(`level ${level}`, level));
        list.lastElementChild.before(...options);
    }

    function watchSlots(page) {
        const onClick = (id, act) => element(id).addEventListener("click", act);
        onClick("first", () => page.goByUser(0));
        onClick("back", () => page.goByUser(page.slot - 1));
        onClick("play", () => page.togglePlay());
        onClick("forward", () => page.goByUser(page.slot + 1));
        onClick("last", () => page.goByUser(page.slots - 1));
        onClick("step-back", () => page.moveStep(-1));
        onClick("step-on", () => page.moveStep(1));
        onClick("whole-slot", () => page.goToStep(null));
        onClick("next-difference", () => page.goToNextDifference());
        onClick("next-unlike", () => page.goToNextOf(page.comparison.differing));
        element("slot").addEventListener("change", () => page.goToTyped(element("slot").value));
        element("slot").addEventListener("blur", () => page.hasSlots && page.ask("slot"));
    }

    function watchTimeline(page) {
        const onClick = (id, act) => element(id).addEventListener("click", act);
        onClick("zoom-in", () => page.timeline.zoomIn());
        onClick("zoom-out", () => page.timeline.zoomOut());
        onClick("zoom-all", () => page.timeline.zoomAll());
        element("speed").addEventListener("change", () => {
            page.player.speed = Number(element("speed").value);
        });
        element("lanes").addEventListener("change", () => {
            page.timeline.lanes = element("lanes").value;
            page.ask("timeline");
        });
    }

    /** The lists, fields and buttons of one run. */
    function watchPane(page, pane) {
        const part = (name) => pane.element(name);
        addLevels(part("row-level"));
        addLevels(part("pointer-level"));
        part("scheduler").append(...viewer.SCHEDULERS.map(({ name, title }) => new Option(title, name)));
        const onChange = (name, act) => part(name).addEventListener("change", () => act(part(name).value));
        onChange("row-level", (value) => pane.set("rowLevel", value));
        onChange("pointer-level", (value) => pane.set("pointerLevel", value));
        onChange("squares", (value) => pane.set("squares", value));
        onChange("scheduler", (value) => page.chooseScheduler(pane, value));
        part("follow").addEventListener("click", () => followTyped(page, pane));
        part("save-svg").addEventListener("click", () => viewer.saveSvg(pane));
        part("save-png").addEventListener("click", () => viewer.savePng(pane));
        pane.onRule = (name) => page.chooseScheduler(pane, name);
        pane.onGo = (slot) => page.goByUser(slot);
        pane.onRestart = () => page.onRestart(pane);
    }

    /** Follows the packet whose input and number were typed, or says why not. */
    function followTyped(page, pane) {
        const typed = ["follow-input", "follow-packet"].map((name) => pane.element(name).value.trim());
        const odd = typed.find((text) => !NUMBER.test(text));
        if (odd !== undefined) {
            page.tell(`"${odd}" is no number of an input or of a packet.`);
            return;
        }
        const packet = pane.queues.packets.find(...typed.map(Number));
        page.tell(packet === null ? `The packets file has no packet ${typed[1]} of input ${typed[0]}.` : null);
        if (packet !== null) {
            pane.follow(packet);
        }
    }

    function watchOpening(page) {
        viewer.watchField(element("file"), (files) => page.open(files));
        viewer.watchField(element("file-2"), (files) => page.open(files, true));
        viewer.watchDrops((files, target) => {
            const second = element("pane-2");
            page.open(files, second.contains(target) && !second.hidden);
        });
        element("close-second").addEventListener("click", () => page.closeSecond());
        viewer.offerExamples(element("examples"), element("example"), element("open-example"), (example) => page.openExample(example));
    }

    function watchWindow(page) {
        window.addEventListener("resize", () => page.ask("layout"));
        const parts = document.querySelectorAll("#columns, header, .controls, .pane .title");
        const frames = page.panes.map((pane) => pane.element("crossbar-frame"));
        viewer.watchRoom(element("columns"), parts, frames, () => page.ask("layout"));
        viewer.watchTheme(element("theme"), () => page.onTheme());
        window.addEventListener("hashchange", (event) => page.onAddress(new URL(event.newURL).hash));
    }

    function watchPage(page) {
        watchSlots(page);
        watchTimeline(page);
        page.panes.forEach((pane) => watchPane(page, pane));
        watchOpening(page);
        viewer.watchKeys(page);
        watchWindow(page);
    }

    viewer.element = element;
    viewer.watchPage = watchPage;
})(globalThis.SlotViewer = globalThis.SlotViewer || {});
