// The page's address: index.html#slot=12&step=grant, and over http also the files that are shown.
(function (viewer) {
    "use strict";

    const NUMBER = /^\d{1,9}$/;
    const LEVEL = /^[0-3]$/;
    /** The names of files in an address: the run, the one beside it, and the packets file of the first. */
    const FILES = ["file", "beside", "packets"];

    /**
     * What the address names: a slot, a step and the level of the pointers that are shown, or null each; for the runs,
     * in order, a scheduler or null; and the paths of files by their names.
     */
    function readAddress(hash = window.location.hash) {
        const words = new URLSearchParams(hash.slice(1));
        const slot = words.get("slot");
        const step = words.get("step");
        const pointers = words.get("pointers");
        const schedulers = (words.get("scheduler") || "").split(",").slice(0, 2);
        const files = FILES.filter((name) => words.get(name)).map((name) => [name, words.get(name)]);
        return {
            slot: slot !== null && NUMBER.test(slot) ? Number(slot) : null,
            step: step !== null && viewer.isStepName(step) ? step : null,
            schedulers: schedulers.map((one) => (viewer.SCHEDULERS.some(({ name }) => name === one) ? one : null)),
            pointers: pointers !== null && LEVEL.test(pointers) ? pointers : null,
            files: Object.fromEntries(files),
        };
    }

    function addressOf({ slot, step, files }) {
        const words = Object.entries(files).map(([name, path]) => `${name}=${encodeURIComponent(path).replace(/%2F/g, "/")}`);
        words.push(`slot=${slot}`);
        if (step !== null) {
            words.push(`step=${step}`);
        }
        return `#${words.join("&")}`;
    }

    /** Puts what is shown into the address, without a new entry in the history. */
    function putIntoAddress(shown) {
        const address = addressOf(shown);
        if (window.location.hash !== address) {
            window.history.replaceState(null, "", address);
        }
    }

    viewer.readAddress = readAddress;
    viewer.putIntoAddress = putIntoAddress;
})(globalThis.SlotViewer = globalThis.SlotViewer || {});
