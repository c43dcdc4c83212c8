// The cases of tests/run_module under node: reads them from standard input, and prints what they give; "null" where
// node does not run the module.
"use strict";

const { readFileSync } = require("node:fs");
const { join } = require("node:path");
const { runInThisContext } = require("node:vm");

const VIEWER = join(__dirname, "../../viewer");
const page = readFileSync(join(VIEWER, "playground.html"), "utf8");
// The scripts of the page that draw nothing.
const scripts = Array.from(page.matchAll(/<script src="([^"]*)"/g), ([, name]) => name)
    .filter((name) => !/d3|theme|playground/.test(name));

for (const name of scripts) {
    runInThisContext(readFileSync(join(VIEWER, name), "utf8"), name);
}
runInThisContext(readFileSync(join(__dirname, "cases.js"), "utf8"), "cases.js");

globalThis.SlotViewer.loadModule().then((module) => {
    const given = JSON.parse(readFileSync(0, "utf8"));
    console.log(JSON.stringify(module === null ? null : globalThis.runCases(globalThis.SlotViewer, module, given)));
});
