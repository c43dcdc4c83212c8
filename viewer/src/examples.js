// The examples of the repository, for a page that is served from it.
(function (viewer) {
    "use strict";

    const FOLDER = "../examples";
    const LECTURE = "lecture";
    const NAMES = ["two_inputs", "one_packet", "small_network", "long_wait", "long_wait_two_rounds", "incast", "growth"];

    function pathOf(name, prefix = "out") {
        return `${FOLDER}/${name}/expected/${prefix}.journal`;
    }

    /** Each with its name and, as an address names them, its files and what it shows other than at first. */
    const EXAMPLES = NAMES.map((name) => ({ title: name, files: { file: pathOf(name) } })).concat([
        { title: "long_wait: ten slots", files: { file: `${FOLDER}/long_wait/ten_slots.journal` } },
        { title: "long_wait beside two rounds", files: { file: pathOf("long_wait"), beside: pathOf("long_wait_two_rounds") } },
        {
            title: "synchronised: iSLIP beside RRM",
            files: { file: pathOf("synchronised", "islip"), beside: pathOf("synchronised", "rrm") },
            schedulers: ["islip", "rrm"],
            pointers: "1",
        },
        {
            title: "starving: RRM beside iSLIP",
            files: { file: pathOf("starving", "rrm"), beside: pathOf("starving", "islip") },
        },
        { title: "full load: RRM", files: { file: `${LECTURE}/full_load_rrm.journal` } },
        { title: "full load: iSLIP", files: { file: `${LECTURE}/full_load_islip.journal` } },
        {
            title: "full load: iSLIP beside RRM",
            files: { file: `${LECTURE}/full_load_islip.journal`, beside: `${LECTURE}/full_load_rrm.journal` },
        },
    ]);

    /** Shows the list and its button where the server has the examples. */
    async function offerExamples(part, list, button, onExample) {
        list.append(...EXAMPLES.map(({ title }, index) => new Option(title, index)));
        button.addEventListener("click", () => onExample(EXAMPLES[Number(list.value)]));
        part.hidden = !(await viewer.isServed(EXAMPLES[0].files.file));
    }

    viewer.EXAMPLES = EXAMPLES;
    viewer.offerExamples = offerExamples;
})(globalThis.SlotViewer = globalThis.SlotViewer || {});
