// Long work in slices, so that the page answers while it goes on.
(function (viewer) {
    "use strict";

    const SLICE_MS = 12;

    /** Why a file cannot be shown, in words for its reader. */
    class FileFault extends Error {}

    /**
     * Runs a generator to its end in slices of a few milliseconds. What it yields is its progress
     * from 0 to 1, which `onProgress` is told once a slice. The promise has what the generator
     * returns; it fails with what the generator throws, and stays open where `isCancelled` says so.
     */
    function runInSlices(generator, onProgress, isCancelled) {
        return new Promise((resolve, reject) => {
            function slice() {
                if (isCancelled()) {
                    return;
                }
                const end = performance.now() + SLICE_MS;
                try {
                    let step = generator.next();
                    while (!step.done && performance.now() < end) {
                        step = generator.next();
                    }
                    if (step.done) {
                        resolve(step.value);
                        return;
                    }
                    onProgress(step.value);
                } catch (fault) {
                    reject(fault);
                    return;
                }
                setTimeout(slice, 0);
            }
            slice();
        });
    }

    /** An act that is done at once with `now`, and with `later` so often at most, the last time too. */
    function throttled(gap, act) {
        let timer = null;
        const now = () => {
            clearTimeout(timer);
            timer = null;
            act();
        };
        const later = () => {
            if (timer === null) {
                timer = setTimeout(now, gap);
            }
        };
        return { now, later };
    }

    viewer.throttled = throttled;
    viewer.FileFault = FileFault;
    viewer.runInSlices = runInSlices;
})(globalThis.SlotViewer = globalThis.SlotViewer || {});
