// Runs bindings/web/gherkin_run.wasm in Node: page.mjs CALLER MODULE CASES
//
// CALLER is bindings/web/source/gherkin_run.js, CASES a file of JSON: a list of pairs of arguments and files, all bytes as base64. Prints
// four values: the results, with their texts as base64 and the time of each run in milliseconds; the results of the first case when
// little memory is left, from none on; how many instances of the module the results took; and the exception of a text that is
// too large for the memory.
import { readFileSync } from "node:fs";

const [caller, module, cases] = process.argv.slice(2);
const { Instance, load } = await import(`data:text/javascript;base64,${readFileSync(caller).toString("base64")}`);
const run = await load(readFileSync(module));
const bytes = (text) => Buffer.from(text, "base64");
const base64 = (text) => Buffer.from(text).toString("base64");
const shown = (it) => ({ ...it, output: base64(it.output), errors: base64(it.errors), file: it.file && base64(it.file) });
const calls = JSON.parse(readFileSync(cases, "utf8")).map(([words, files]) => [words.map(bytes), files.map((it) => it.map(bytes))]);

function timed(call) {
    const begun = performance.now();
    const result = run(...call);
    return { ...shown(result), time: performance.now() - begun };
}

// Makes a call in an instance in which nearly all memory is taken, and what is left is taken in at most this many small blocks.
// Returns how many were taken, and the result.
function runWithout(compiled, call, most) {
    const instance = new Instance(compiled);
    const { malloc } = instance.exports;
    const prepared = instance.prepared(...call, [1 << 12, 1 << 12]);
    for (let size = 1 << 30; size >= 1 << 19; size /= 2) while (malloc(BigInt(size)) !== 0n);
    let taken = 0;
    while (taken < most && malloc(16n) !== 0n) taken += 1;
    return [taken, shown(instance.called(prepared))];
}

let made = 0;
const { Instance: Made } = WebAssembly;
WebAssembly.Instance = function (...words) {
    made += 1;
    return new Made(...words);
};
const results = calls.map(timed);
WebAssembly.Instance = Made;
const compiled = await WebAssembly.compile(readFileSync(module));
const [all] = runWithout(compiled, calls[0], Infinity);
const left = [0, 16, 64, 256, 512, 1024, 1536, 2048, 3072, 4096, 6144, 8192, 12288, 16384].filter((blocks) => blocks <= all);
const refused = left.map((blocks) => runWithout(compiled, calls[0], all - blocks)[1]);
let large;
try {
    large = new Instance(compiled).room(2 ** 32);
} catch (error) {
    large = String(error);
}
process.stdout.write(JSON.stringify([results, refused, made, large]));
