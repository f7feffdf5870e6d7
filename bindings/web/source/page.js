// The page: runs in a worker what the fields hold, as it is typed, and shows the result.
const $ = (id) => document.getElementById(id);
const FIRST_EXAMPLE = "paint.feature";
// What each tab adds to the arguments, and what its statuses 0 and 1 say.
const TABS = {
    report: { words: [], verdicts: ["Nothing failed", "Failed"] },
    explanation: { words: ["--explain"], verdicts: ["Nothing failed", "Failed"] },
    findings: { words: ["--lint"], verdicts: ["Nothing found", "Something found"] },
};
// The program's options. Each has a field, and the tabs on which the program takes it. A text is one argument for each of its
// parts, a flag is one if it is checked. A file is its name if the field of its text isn't empty, and one that steps find is
// put under that name. `name` is the name at first, and `first` the text.
const OPTIONS = [
    // tools/tables.py: options
    { option: "--tags", field: "tags", kind: "text", between: "\n", tabs: ["report", "explanation", "findings"] },
    { option: "--line", field: "lines", kind: "text", between: /[\s,]+/, tabs: ["report", "explanation", "findings"] },
    { option: "--library", field: "library", kind: "file", name: "own.steps", tabs: ["report", "explanation", "findings"] },
    { option: "--hooks", field: "hooks", kind: "file", name: "own.hooks", tabs: ["report", "explanation", "findings"] },
    { option: "--env", field: "variables", kind: "text", between: "\n", tabs: ["report", "explanation", "findings"] },
    { option: "--file", field: "written", kind: "put", name: "out.txt", tabs: ["report", "explanation"] },
    { option: "--dry-run", field: "dryRun", kind: "flag", tabs: ["report"] },
    { option: "--stop", field: "stop", kind: "flag", tabs: ["report", "explanation"] },
    { option: "--format", field: "format", kind: "text", between: "\n", first: "plain", tabs: ["report"] },
    { option: "--no-skipped", field: "noSkipped", kind: "flag", tabs: ["report"] },
    // tools/tables.py: end
];
// The fields with a text, and what they hold at first.
const TEXTS = {};
for (const { field, kind, name, first = "" } of OPTIONS) {
    if (kind !== "flag") TEXTS[field] = first;
    if (name !== undefined) TEXTS[`${field}Name`] = name;
}
const FLAGS = OPTIONS.filter((it) => it.kind === "flag").map((it) => it.field);
// The texts that only some values can be.
const CHOICES = { format: [...$("format").options].map((it) => it.value), tab: Object.keys(TABS) };
const WORKER = URL.createObjectURL(new Blob([$("worker").textContent], { type: "text/javascript" }));
const PAUSE = 150; // milliseconds from the last key to a run
const SLOW = 300; // milliseconds until the page says that a run goes on
const LONGEST_LINK = 1000000; // characters; a browser may take no more than 1,048,576 in an address
const PIECE = 16384; // characters that are laid out together, up to the next line feed

let worker;
let asked = 0; // the number of the last request
let answered = 0; // the number of the last one that is over
let timer; // of the next run
let slow; // of the message that a run goes on
let replaced; // the inputs before the last example, link or removal
let tab = "report"; // the one that is selected

// ---- fields

// Adds a feature file, which labelFiles labels.
function addFile(name, text) {
    const file = $("file").content.firstElementChild.cloneNode(true);
    file.querySelector(".name").value = name;
    file.querySelector(".text").value = text;
    file.querySelector(".remove").onclick = () => removeFile(file);
    $("files").append(file);
    return file;
}

// Removes a file, and moves the focus to the next one, or the one before.
function removeFile(file) {
    const next = file.nextElementSibling ?? file.previousElementSibling;
    keep();
    file.remove();
    labelFiles();
    next.querySelector(".text").focus();
    later();
}

// Labels each feature file for screen readers. The only one can't be removed.
function labelFiles() {
    const files = [...$("files").children];
    files.forEach((file, n) => {
        const which = files.length > 1 ? ` ${n + 1}` : "";
        file.querySelector(".name").setAttribute("aria-label", `Name of feature file${which}`);
        file.querySelector(".text").setAttribute("aria-label", `Feature file${which}`);
        file.querySelector(".remove").setAttribute("aria-label", `Remove feature file${which}`);
        file.querySelector(".remove").hidden = files.length === 1;
    });
}

// Returns a name that no file has.
function freshName() {
    const names = inputs().files.map(([name]) => name);
    let number = names.length + 1;
    while (names.includes(`file${number}.feature`)) number += 1;
    return `file${number}.feature`;
}

function inputs() {
    const found = { tab, files: [...$("files").children].map((it) => [it.querySelector(".name").value, it.querySelector(".text").value]) };
    for (const name of Object.keys(TEXTS)) found[name] = $(name).value;
    for (const name of FLAGS) found[name] = $(name).checked;
    return found;
}

// Shows inputs, and runs them.
function show(given) {
    $("files").replaceChildren();
    for (const [name, text] of given.files) addFile(name, text);
    labelFiles();
    for (const [name, first] of Object.entries(TEXTS)) $(name).value = given[name] ?? first;
    for (const name of FLAGS) $(name).checked = given[name] ?? false;
    for (const part of document.querySelectorAll("#options details")) {
        part.open = OPTIONS.some(({ field }) => part.contains($(field)) && $(field).value !== "");
    }
    $("text").scrollTop = 0;
    select(given.tab ?? "report");
    runNow();
}

// Selects a tab, and shows the options that the program takes there.
function select(name) {
    tab = name;
    for (const it of Object.keys(TABS)) {
        $(it).setAttribute("aria-selected", String(it === tab));
        $(it).tabIndex = it === tab ? 0 : -1;
    }
    $("text").setAttribute("aria-labelledby", tab);
    for (const { field, tabs } of OPTIONS) {
        $(field).closest(".option").hidden = !tabs.includes(tab);
    }
}

// Selects a tab by the user, and runs.
function changeTab(name) {
    forgetLink();
    select(name);
    $(name).focus();
    runNow();
}

// Keeps the inputs, for Undo to bring back.
function keep() {
    replaced = inputs();
    $("undo").hidden = false;
}

function replaceBy(given) {
    keep();
    forgetLink();
    show(given);
}

// ---- the program's arguments

// Returns the arguments for some inputs.
function wordsOf(given) {
    const options = OPTIONS.filter(({ tabs }) => tabs.includes(given.tab)).flatMap(({ option, field, kind, between }) => {
        const value = given[field];
        if (kind === "flag") return value ? [option] : [];
        const name = given[`${field}Name`];
        if (name !== undefined) return value === "" ? [] : [`${option}=${kind === "put" ? `${name}=${name}` : name}`];
        return value.split(between).filter((it) => it !== "").map((it) => `${option}=${it}`);
    });
    return [...TABS[given.tab].words, ...options, "--", ...given.files.map(([name]) => name)];
}

// Returns the names and texts of all files of some inputs.
function filesOf(given) {
    const own = OPTIONS.filter(({ field }) => given[`${field}Name`] !== undefined && given[field] !== "");
    return [...own.map(({ field }) => [given[`${field}Name`], given[field]]), ...given.files];
}

// Returns the inputs for some arguments, each option and its value as two words, and the texts of their files.
function inputsOf({ words, texts }) {
    const given = { files: [] };
    const left = words.values();
    for (const word of left) {
        const { field, kind, between } = OPTIONS.find((it) => it.option === word) ?? { kind: "none" };
        const named = Object.keys(TABS).find((it) => TABS[it].words.includes(word));
        if (named) given.tab = named;
        else if (kind === "none") given.files.push([word, texts[word]]);
        else if (kind === "flag") given[field] = true;
        else if (kind === "text") given[field] = [given[field] ?? [], left.next().value].flat().join(typeof between === "string" ? between : " ");
        else {
            given[`${field}Name`] = left.next().value.split("=").at(-1);
            given[field] = texts[given[`${field}Name`]];
        }
    }
    return given;
}

// ---- runs

function begin() {
    worker = new Worker(WORKER);
    worker.onmessage = ({ data }) => ended(data);
    worker.onerror = (event) => refuse(`This browser can't run it: ${event.message}`);
    worker.postMessage({ module: $("module").textContent.trim() });
}

// Says how the run went. `kind` is the class of the text.
function say(state, text, kind = "", time = "") {
    clearTimeout(slow);
    document.body.dataset.state = state;
    $("status").textContent = text;
    $("status").className = kind;
    $("time").textContent = time;
    if (state !== "running" && document.activeElement === $("halt")) $("run").focus();
    $("halt").hidden = state !== "running";
}

// Returns a text in pieces that end with a line feed.
function piecesOf(text, kind) {
    const pieces = [];
    for (let from = 0; from < text.length;) {
        const to = text.indexOf("\n", from + PIECE) + 1 || text.length;
        const piece = document.createElement("div");
        piece.className = kind;
        piece.textContent = text.slice(from, to);
        pieces.push(piece);
        from = to;
    }
    return pieces;
}

function print(errors, output) {
    $("text").replaceChildren(...piecesOf(errors, "wrong"), ...piecesOf(output, ""));
}

// Shows a message in place of a result.
function refuse(message) {
    print(message, "");
    say("failed", "Not run", "bad");
}

function ended({ number, answer, error, time }) {
    answered = number;
    // Of inputs that have changed since, nothing is shown.
    if (number !== asked || document.body.dataset.state === "waiting") return;
    if (error !== undefined) {
        refuse(`The run couldn't end: ${error}`);
        return;
    }
    const { status, output, errors } = answer;
    const verdict = TABS[tab].verdicts[status] ?? (status === 4 ? "Memory ran out" : "Fault");
    print(errors, output);
    say("done", `${verdict}, status ${status}`, status === 0 ? "good" : "bad", `${time.toFixed(1)} ms`);
    document.body.dataset.status = status;
}

// Marks the fields with a name that two files have, and returns that name, if there is one.
function repeatedName(files) {
    const earlier = new Set();
    const repeated = files.map(([name]) => name).find((name) => earlier.size === earlier.add(name).size);
    for (const field of document.querySelectorAll(".name")) field.setAttribute("aria-invalid", String(field.value === repeated));
    return repeated;
}

// Ends the current run, if there is one, and begins one with the current fields.
function runNow() {
    clearTimeout(timer);
    if (answered < asked) halt();
    const given = inputs();
    const files = filesOf(given);
    const repeated = repeatedName(files);
    if (repeated !== undefined) {
        refuse(`Two files have the name ${JSON.stringify(repeated)}.`);
        return;
    }
    asked += 1;
    document.body.dataset.state = "running";
    slow = setTimeout(() => say("running", "Running .."), SLOW);
    const explained = given.tab === "report" ? wordsOf({ ...given, tab: "explanation" }) : undefined;
    worker.postMessage({ number: asked, words: wordsOf(given), explained, files });
}

// Runs what the fields hold once nothing was typed for a while.
function later() {
    forgetLink();
    clearTimeout(timer);
    clearTimeout(slow);
    document.body.dataset.state = "waiting";
    timer = setTimeout(runNow, PAUSE);
}

function halt() {
    clearTimeout(timer);
    clearTimeout(slow);
    worker.terminate();
    answered = asked;
    begin();
}

// ---- links

function linkOf(given) {
    const bytes = new TextEncoder().encode(JSON.stringify(given));
    const text = Array.from(bytes, (it) => String.fromCharCode(it)).join("");
    return `#${btoa(text).replaceAll("+", "-").replaceAll("/", "_").replaceAll("=", "")}`;
}

// Whether a value can be shown: each field that it has is of the field's type.
function isInputs(given) {
    const isText = (it) => typeof it === "string";
    const isFile = (it) => Array.isArray(it) && it.length === 2 && it.every(isText);
    const has = (name, holds) => given[name] === undefined || holds(given[name]);
    return Array.isArray(given?.files) && given.files.length > 0 && given.files.every(isFile)
        && Object.keys(TEXTS).every((name) => has(name, isText)) && FLAGS.every((name) => has(name, (it) => typeof it === "boolean"))
        && Object.entries(CHOICES).every(([name, values]) => has(name, (it) => values.includes(it)));
}

// Returns the inputs of a link, or nothing if it holds none.
function linked(hash) {
    try {
        const text = atob(hash.slice(1).replaceAll("-", "+").replaceAll("_", "/"));
        const given = JSON.parse(new TextDecoder("utf-8", { fatal: true }).decode(Uint8Array.from(text, (it) => it.charCodeAt(0))));
        return isInputs(given) ? given : undefined;
    } catch {
        return undefined;
    }
}

// Takes the link out of the address, since the fields hold something else now.
function forgetLink() {
    $("notice").textContent = "";
    if (location.hash !== "") history.replaceState(null, "", location.pathname + location.search);
}

async function makeLink() {
    const made = linkOf(inputs());
    if (made.length > LONGEST_LINK) {
        $("notice").textContent = `These inputs are too long for a link: it would have ${made.length} characters, and can have ${LONGEST_LINK}.`;
        return;
    }
    history.replaceState(null, "", made);
    $("notice").textContent = "The link is in the address.";
    try {
        await navigator.clipboard.writeText(location.href);
        if (location.hash === made) $("notice").textContent = "The link is copied, and in the address.";
    } catch {
        // The browser doesn't let the page copy it; the address has it.
    }
}

// ---- the page begins

const EXAMPLES = JSON.parse($("examples").textContent);
for (const name of Object.keys(EXAMPLES)) $("example").append(new Option(name, name, false, name === FIRST_EXAMPLE));
$("open").onclick = () => replaceBy({ tab, ...inputsOf(EXAMPLES[$("example").value]) });
$("undo").onclick = () => replaceBy(replaced);
$("add").onclick = () => {
    const file = addFile(freshName(), "");
    labelFiles();
    file.querySelector(".text").focus();
    later();
};
$("halt").onclick = () => {
    halt();
    print("", "");
    say("stopped", "Stopped");
};
$("link").onclick = makeLink;
for (const [n, name] of Object.keys(TABS).entries()) {
    $(name).onclick = () => changeTab(name);
    // The arrow keys go round.
    $(name).onkeydown = ({ key }) => {
        const step = { ArrowLeft: -1, ArrowRight: 1 }[key];
        if (step) changeTab(Object.keys(TABS).at((n + step) % 3));
    };
}
$("inputs").addEventListener("input", (event) => {
    if (event.target !== $("example")) later();
});
$("inputs").onsubmit = (event) => {
    event.preventDefault();
    runNow();
};
window.onhashchange = () => {
    if (location.hash === "") return;
    const given = linked(location.hash);
    if (given === undefined) {
        $("notice").textContent = "The link in the address can't be used. The fields are as they were.";
        return;
    }
    keep();
    $("notice").textContent = "";
    show(given);
};
begin();
const given = location.hash === "" ? undefined : linked(location.hash);
show(given ?? inputsOf(EXAMPLES[FIRST_EXAMPLE]));
if (given === undefined && location.hash !== "") $("notice").textContent = "The link in the address can't be used. The page shows its example.";
