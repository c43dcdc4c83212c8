// Files beside the page, where it is served over http; from the disk a page may not read them.
(function (viewer) {
    "use strict";

    const { FileFault } = viewer;

    const canFetch = /^https?:$/.test(window.location.protocol);

    function nameOf(url) {
        return decodeURIComponent(url.pathname.split("/").pop());
    }

    /** A file by its path, from the page's own server alone. Fails with FileFault. */
    async function fetchFile(path) {
        const refuse = (why) => {
            throw new FileFault(`${path} cannot be shown: ${why}`);
        };
        const url = new URL(path, window.location.href);
        if (!canFetch) {
            refuse("a page that is opened from the disk may not read files beside it; choose the file, or serve the page over http");
        }
        if (url.origin !== window.location.origin) {
            refuse("it is not on the server of the page");
        }
        const answer = await fetch(url).catch(() => null);
        if (answer === null || !answer.ok) {
            refuse(`the server does not give it${answer === null ? "" : ` (${answer.status})`}`);
        }
        return new File([await answer.arrayBuffer()], nameOf(url));
    }

    /** Whether the server has a file. */
    async function isServed(path) {
        const answer = canFetch ? await fetch(path, { method: "HEAD" }).catch(() => null) : null;
        return answer !== null && answer.ok;
    }

    viewer.fetchFile = fetchFile;
    viewer.isServed = isServed;
})(globalThis.SlotViewer = globalThis.SlotViewer || {});
