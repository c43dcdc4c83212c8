// Reads the files that the user gives, and says which part of the page each of them is for.
(function (viewer) {
    "use strict";

    const { FileFault } = viewer;

    /** "out" of out.journal, out.report and out.packets.csv. */
    function prefixOf(name) {
        return name.replace(/\.(journal|report|packets\.csv)$/, "");
    }

    /** Reads files one after another: each with its name, a key of its name and size, and its content. */
    async function readAll(files, onProgress, isCancelled) {
        const found = [];
        for (const file of files) {
            try {
                const content = await viewer.readFile(file, (part) => onProgress(file.name, part), isCancelled);
                found.push({ name: file.name, key: `${file.name} ${file.size}`, content });
            } catch (fault) {
                if (fault instanceof FileFault) {
                    throw new FileFault(`${file.name} cannot be shown: ${fault.message}`);
                }
                throw fault;
            }
        }
        return found;
    }

    /** Runs and packets files apart. Of a report and a journal of the same name the journal is shown. */
    function sortFiles(read) {
        const packets = read.filter(({ content }) => content.form === "packets");
        const journals = new Set(read.filter(({ content }) => content.form === "journal").map(({ name }) => prefixOf(name)));
        const isRun = ({ content }) => content.form !== "packets";
        const isDouble = ({ name, content }) => content.form === "report" && journals.has(prefixOf(name));
        return { runs: read.filter((one) => isRun(one) && !isDouble(one)), packets };
    }

    /**
     * Puts a packets file beside the run that it is of: first one of the same name, then any. Fails with
     * FileFault where it is of none.
     */
    async function attachPackets(panes, { name, content }, isCancelled) {
        const withSlots = panes.filter((pane) => pane.hasSlots);
        if (withSlots.length === 0) {
            throw new FileFault(`${name} is a packets file; open the journal of its run first, or both together`);
        }
        const isNamed = (pane) => prefixOf(pane.name) === prefixOf(name);
        let firstFault = null;
        for (const pane of withSlots.filter(isNamed).concat(withSlots.filter((one) => !isNamed(one)))) {
            try {
                pane.attach(await viewer.runInSlices(viewer.fillQueues(pane.run, content), () => {}, isCancelled));
                return;
            } catch (fault) {
                if (!(fault instanceof FileFault)) {
                    throw fault;
                }
                firstFault = firstFault || fault;
            }
        }
        throw new FileFault(`${name} is not of a run that is shown: ${firstFault.message}`);
    }

    viewer.readAll = readAll;
    viewer.sortFiles = sortFiles;
    viewer.attachPackets = attachPackets;
})(globalThis.SlotViewer = globalThis.SlotViewer || {});
