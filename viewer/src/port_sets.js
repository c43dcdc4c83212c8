// Sets of ports as two 32-bit words: `low` has ports 0 to 31, `high` has ports 32 to 63.
(function (viewer) {
    "use strict";

    /** The least bit of a word that is not 0, as 0 to 31. */
    function lowestBit(word) {
        return 31 - Math.clz32(word & -word);
    }

    /** The least member of a set, or -1 where it is empty. */
    function lowest(low, high) {
        if (low !== 0) {
            return lowestBit(low);
        }
        return high !== 0 ? 32 + lowestBit(high) : -1;
    }

    /**
     * The rotating choice: the first member at or after port `from`, going round; -1 where the
     * set is empty.
     */
    function firstFrom(low, high, from) {
        let lowAfter = 0;
        let highAfter = high;
        if (from < 32) {
            lowAfter = low & (-1 << from);
        } else {
            highAfter = high & (-1 << (from - 32));
        }
        return (lowAfter | highAfter) !== 0 ? lowest(lowAfter, highAfter) : lowest(low, high);
    }

    /** Whether the port is in the set. */
    function has(low, high, port) {
        const word = port < 32 ? low : high;
        return (word >>> (port & 31) & 1) === 1;
    }

    /** The members of a set in rising order. */
    function members(low, high) {
        const found = [];
        for (let rest = low; rest !== 0; rest &= rest - 1) {
            found.push(lowestBit(rest));
        }
        for (let rest = high; rest !== 0; rest &= rest - 1) {
            found.push(32 + lowestBit(rest));
        }
        return found;
    }

    viewer.portSets = { lowestBit, lowest, firstFrom, has, members };
})(globalThis.SlotViewer = globalThis.SlotViewer || {});
