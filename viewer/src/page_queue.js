// How the page chooses and shows one queue over time.
(function (viewer) {
    "use strict";

    const { element } = viewer;

    const PORT = /^\d{1,2}$/;
    const FIELDS = ["input", "output", "level", "kind"];

    function field(name) {
        return element(`queue-${name}`);
    }

    /** The place that the fields name, or null where one of them is no port of the run. */
    function typedPlace(ports) {
        const [input, output, level, kind] = FIELDS.map((name) => field(name).value.trim());
        const isPort = (text) => PORT.test(text) && Number(text) < ports;
        return isPort(input) && isPort(output) ? { input: Number(input), output: Number(output), level: Number(level), kind: Number(kind) } : null;
    }

    Object.assign(viewer.Page.prototype, {
        /** Shows the queue of the fields, or says why not. */
        showTypedQueue() {
            const { ports } = this.run;
            const place = typedPlace(ports);
            this.tell(place === null ? `A queue has an input and an output from 0 to ${ports - 1}.` : null);
            if (place !== null) {
                this.queueChart.show(this.openPanes, place);
                this.ask("slot");
            }
        },

        /** Shows the first queue of a crosspoint, if one ever has cells. */
        showQueueAt(input, output) {
            const pane = this.openPanes.find(({ queues }) => queues !== null);
            if (pane !== undefined) {
                this.showQueue(viewer.firstQueueAt(pane, input, output));
            }
        },

        showQueue(place) {
            if (place !== null) {
                FIELDS.forEach((name) => {
                    field(name).value = place[name];
                });
                this.queueChart.show(this.openPanes, place);
            }
        },

        /** Draws the queue over time, where a packets file is beside a run. */
        drawQueue() {
            const { queueChart, openPanes } = this;
            if (queueChart.isStale(openPanes)) {
                const wasEmpty = queueChart.lines.length === 0;
                queueChart.show(openPanes);
                // At first the queue that is the deepest of all.
                this.showQueue(wasEmpty && queueChart.lines.length > 0 ? queueChart.lines[0].queues.deepestPlace : null);
            }
            element("queue-part").hidden = queueChart.lines.length === 0;
            if (queueChart.lines.length > 0) {
                queueChart.draw(this.palette, this.timeline);
                element("queue-line").textContent = queueChart.told();
            }
        },
    });

    /** Watches the fields of the queue. */
    viewer.watchQueue = (page) => {
        field("level").append(...Array.from({ length: viewer.LEVELS }, (_, level) => new Option(level, level)));
        FIELDS.forEach((name) => field(name).addEventListener("change", () => page.showTypedQueue()));
    };
})(globalThis.SlotViewer = globalThis.SlotViewer || {});
