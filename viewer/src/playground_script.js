// The requests of slots as text, one line a slot: the form of docs/FORMATS.md for journals, of level 0 and unicast.
(function (viewer) {
    "use strict";

    const { FileFault, FREE, MAX_PORTS, MAX_ROUNDS } = viewer;

    const HEAD = /^journal ports ([1-9]\d?) rounds ([1-9]\d?)$/;
    const SLOT = /^slot (0|[1-9]\d{0,6}) requests\b/;
    /** What stands in the line of a slot, in this order; the playground has no use for `more`. */
    const SECTIONS = ["requests", "more", "matches"];
    const REQUEST = /^(0|[1-9]\d?)>(\*|(?:0|[1-9]\d?)(?:,(?:0|[1-9]\d?))*):0u$/;
    const PAIR = /^(0|[1-9]\d?)>(0|[1-9]\d?):0u$/;

    function port(text, ports) {
        const number = Number(text);
        if (number >= ports) {
            throw new FileFault(`there is no port ${number}`);
        }
        return number;
    }

    /** The places that a word such as `0>1,2:0u` asks. */
    function placesOf(word, ports) {
        const found = REQUEST.exec(word);
        if (found === null) {
            throw new FileFault(`"${word}" is no request of the playground, such as 0>1,2:0u`);
        }
        const input = port(found[1], ports);
        const outputs = found[2] === "*" ? d3.range(ports) : found[2].split(",").map((text) => port(text, ports));
        return outputs.map((output) => input * ports + output);
    }

    /** The match that words such as `0>1:0u` tell: the input of each output, or FREE. */
    function matchOf(words, ports) {
        const inputs = new Uint8Array(ports).fill(FREE);
        words.forEach((word) => {
            const found = PAIR.exec(word);
            if (found === null) {
                throw new FileFault(`"${word}" is no pair of the playground, such as 0>1:0u`);
            }
            inputs[port(found[2], ports)] = port(found[1], ports);
        });
        return inputs;
    }

    /** The words of each section of a line, by its name; null where one stands in another place. */
    function sectionsOf(line) {
        const found = {};
        let name;
        for (const word of line.split(" ").slice(2)) {
            if (SECTIONS.indexOf(word) > SECTIONS.indexOf(name)) {
                name = word;
                found[name] = [];
            } else if (SECTIONS.includes(word)) {
                return null;
            } else {
                found[name].push(word);
            }
        }
        return found;
    }

    function readSlot(line, slot, ports) {
        const head = SLOT.exec(line);
        const found = head === null || Number(head[1]) !== slot ? null : sectionsOf(line);
        if (found === null) {
            throw new FileFault(`"${line}" is not the line of slot ${slot}, such as: slot ${slot} requests 0>1,2:0u 1>0:0u`);
        }
        const asked = found.requests.flatMap((word) => placesOf(word, ports));
        if (new Set(asked).size < asked.length) {
            throw new FileFault("an output is asked twice by one input");
        }
        return { asked, match: found.matches === undefined ? null : matchOf(found.matches, ports) };
    }

    function readHead(line) {
        const [, ports, rounds] = (HEAD.exec(line) || []).map(Number);
        if (!(ports <= MAX_PORTS && rounds <= MAX_ROUNDS)) {
            throw new FileFault(`"${line}" is not of the form: journal ports 4 rounds 1`);
        }
        return { ports, rounds };
    }

    /**
     * Reads a text of so many ports, unless its first line has its own: ports, rounds or null, for each slot the places that are
     * asked, and its match or null. Fails with FileFault at a line that is wrong.
     */
    function readScript(text, ports) {
        const read = { ports, rounds: null, lines: [], matches: [] };
        let isFirst = true;
        text.split(/\r?\n/).forEach((given, at) => {
            const line = given.trim().replace(/[ \t]+/g, " ");
            if (line === "" || line.startsWith("#")) {
                return;
            }
            try {
                readLine(read, line, isFirst);
            } catch (fault) {
                throw fault instanceof FileFault ? new FileFault(`line ${at + 1}: ${fault.message}`) : fault;
            }
            isFirst = false;
        });
        if (read.lines.length === 0) {
            throw new FileFault("there is no line of a slot");
        }
        return read;
    }

    function readLine(read, line, isFirst) {
        if (isFirst && line.startsWith("journal")) {
            Object.assign(read, readHead(line));
            return;
        }
        if (read.lines.length === viewer.MOST_SLOTS) {
            throw new FileFault(`there are more than ${viewer.MOST_SLOTS} slots`);
        }
        const { asked, match } = readSlot(line, read.lines.length, read.ports);
        read.lines.push(asked);
        read.matches.push(match);
    }

    /** The words of the requests of a slot; `isAsked` is called for each input and output, one after the other. */
    function requestWords(ports, isAsked) {
        return d3.range(ports).flatMap((input) => {
            const outputs = d3.range(ports).filter((output) => isAsked(input, output));
            return outputs.length === 0 ? [] : [`${input}>${outputs.join(",")}:0u`];
        });
    }

    /** The text of slots, of which each is a list of words. */
    function textOf({ ports, rounds }, slots) {
        const lines = slots.map((words, slot) => ["slot", slot, "requests", ...words].join(" "));
        return [`journal ports ${ports} rounds ${rounds}`, ...lines].map((line) => `${line}\n`).join("");
    }

    /** The slots so far as text, with their matches. */
    function writeScript(model) {
        return textOf(model, model.history.map(({ cells, inputs }) => {
            const asked = requestWords(model.ports, (input, output) => cells[model.place(input, output)] > 0);
            const matched = viewer.pairsOfInputs(inputs).map(({ input, output }) => `${input}>${output}:0u`);
            return [...asked, "matches", ...matched];
        }));
    }

    /** The text of so many slots of random requests, each queue with the share. */
    function randomScript(model, slots, { seed, share }) {
        const next = viewer.randomNumbers(seed);
        return textOf(model, d3.range(slots).map(() => requestWords(model.ports, () => next() < share / 100)));
    }

    /** The text from which requests come, written anew. */
    function scriptAgain(model) {
        return textOf(model, model.script.lines.map((asked) => requestWords(model.ports, (input, output) => asked.includes(model.place(input, output)))));
    }

    /** The first slot whose match is another than that of the text, or -1. */
    function firstUnlike(model, matches) {
        return model.history.findIndex(({ inputs, slot }) => {
            const match = matches[slot];
            return match !== undefined && match !== null && match.some((input, output) => input !== inputs[output]);
        });
    }

    Object.assign(viewer, { readScript, writeScript, randomScript, scriptAgain, firstUnlike });
})(globalThis.SlotViewer = globalThis.SlotViewer || {});
