// Light or dark: the attribute data-theme of the page, by which the style sheet has its colours.
(function (viewer) {
    "use strict";

    const system = window.matchMedia("(prefers-color-scheme: dark)");
    /** "light", "dark", or "" for that of the system. */
    let chosen = "";

    function setTheme() {
        document.documentElement.dataset.theme = chosen || (system.matches ? "dark" : "light");
    }

    /** Follows the system and the list of themes, and tells `onTheme` of each change. */
    function watchTheme(list, onTheme) {
        const change = () => {
            setTheme();
            onTheme();
        };
        system.addEventListener("change", change);
        list.addEventListener("change", () => {
            chosen = list.value;
            change();
        });
    }

    setTheme();
    viewer.watchTheme = watchTheme;
})(globalThis.SlotViewer = globalThis.SlotViewer || {});
