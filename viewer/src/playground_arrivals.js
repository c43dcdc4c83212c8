// When the cells came that wait in the queues of the playground.
(function (viewer) {
    "use strict";

    /** For each queue the slots in which its cells came, the oldest first. What was changed since a mark can be taken back. */
    class ArrivalSlots {
        constructor(queues) {
            this.lists = Array.from({ length: queues }, () => []);
            this.firstNotes = this.mark();
        }

        /** Notes from now on what each queue had that changes, and that changes by hand. Gives the notes, which grow up to the next mark. */
        mark() {
            this.notes = { former: new Map(), unedited: new Map() };
            return this.notes;
        }

        /** Takes back what was changed since the mark that gave these notes, and goes on with those of the mark before, null for the first. */
        back({ former }, before) {
            former.forEach((list, queue) => {
                this.lists[queue] = list;
            });
            this.notes = before || this.firstNotes;
        }

        /** Gives a queue another list; lists stay as they are, since notes have them. */
        put(queue, list) {
            const { former } = this.notes;
            if (!former.has(queue)) {
                former.set(queue, this.lists[queue]);
            }
            this.lists[queue] = list;
        }

        enter(queue, slot) {
            this.put(queue, this.lists[queue].concat(slot));
        }

        /** Has so many cells more than before any were changed by hand in the slot; where `by` is below 0 the newest are gone. */
        edit(queue, by, slot) {
            const { unedited } = this.notes;
            const list = unedited.get(queue) || this.lists[queue];
            unedited.set(queue, list);
            this.put(queue, by < 0 ? list.slice(0, by) : list.concat(new Array(by).fill(slot)));
        }

        /** Takes the oldest cell, and gives the slot in which it came. */
        serve(queue) {
            const [oldest] = this.lists[queue];
            this.put(queue, this.lists[queue].slice(1));
            return oldest;
        }
    }

    viewer.ArrivalSlots = ArrivalSlots;
})(globalThis.SlotViewer = globalThis.SlotViewer || {});
