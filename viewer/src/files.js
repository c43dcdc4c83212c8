// Which file the user gives, and which form it has.
(function (viewer) {
    "use strict";

    const { FileFault } = viewer;

    /** No report, no journal and no packets file has more bytes. */
    const MAX_FILE_BYTES = 268435456;
    const REPORT_START = "ports ";
    /** The first bytes of a capture, as they stand in files of either byte order. */
    const CAPTURE_STARTS = ["a1b2c3d4", "a1b23c4d", "d4c3b2a1", "4d3cb2a1"];

    function startOf(bytes, count) {
        return Array.from(bytes.subarray(0, count));
    }

    /** The generator that reads the bytes of a report, of a journal or of a packets file. */
    function readerOf(bytes) {
        if (bytes.length === 0) {
            throw new FileFault("the file is empty");
        }
        if (viewer.isJournal(bytes)) {
            return viewer.readJournal(bytes);
        }
        if (viewer.isPacketsFile(bytes)) {
            return viewer.readPackets(bytes);
        }
        if (String.fromCharCode(...startOf(bytes, REPORT_START.length)) === REPORT_START) {
            return viewer.readReport(bytes);
        }
        const start = startOf(bytes, 4).map((byte) => byte.toString(16).padStart(2, "0")).join("");
        if (CAPTURE_STARTS.includes(start)) {
            throw new FileFault("it is a capture; the viewer shows the report, the journal and the packets file of a run");
        }
        throw new FileFault('it is no report, which begins with "ports", no journal, which begins with TTJ1, '
            + 'and no packets file, which begins with "input,packet"');
    }

    async function bytesOf(file) {
        if (file.size > MAX_FILE_BYTES) {
            throw new FileFault(`it has ${file.size} bytes, and no file of a run has more than ${MAX_FILE_BYTES}`);
        }
        try {
            return new Uint8Array(await file.arrayBuffer());
        } catch (fault) {
            throw new FileFault("it cannot be read (a folder, or a file that was moved or changed)");
        }
    }

    /** Reads a file whole: the run or the packets that it tells. Fails with FileFault. */
    async function readFile(file, onProgress, isCancelled) {
        const bytes = await bytesOf(file);
        return viewer.runInSlices(readerOf(bytes), onProgress, isCancelled);
    }

    /** Tells `onFiles` of the files that are chosen with a field. */
    function watchField(field, onFiles) {
        field.addEventListener("change", () => {
            if (field.files.length > 0) {
                onFiles(Array.from(field.files));
            }
            // The same file, written anew, can be chosen again.
            field.value = "";
        });
    }

    /** Tells `onFiles` of the files that are dropped, and on which element. */
    function watchDrops(onFiles) {
        const mark = (isOver) => document.body.classList.toggle("dropping", isOver);
        document.addEventListener("dragover", (event) => {
            event.preventDefault();
            mark(true);
        });
        document.addEventListener("dragleave", (event) => mark(event.relatedTarget !== null));
        document.addEventListener("drop", (event) => {
            event.preventDefault();
            mark(false);
            if (event.dataTransfer.files.length > 0) {
                onFiles(Array.from(event.dataTransfer.files), event.target);
            }
        });
    }

    viewer.readFile = readFile;
    viewer.watchField = watchField;
    viewer.watchDrops = watchDrops;
})(globalThis.SlotViewer = globalThis.SlotViewer || {});
