// Runs the program for the page, one run after another. The first message is the module, as base64.
let running;

onmessage = async ({ data }) => {
    if (data.module !== undefined) {
        const bytes = Uint8Array.from(atob(data.module), (it) => it.charCodeAt(0));
        running = load(bytes);
        return;
    }
    try {
        const run = await running;
        const begun = performance.now();
        const answer = run(data.words, data.files);
        // Below a fault, an explanation says how to mend it.
        if (answer.errors !== "" && data.explained !== undefined) {
            answer.errors = run(data.explained, data.files).errors || answer.errors;
        }
        postMessage({ number: data.number, answer, time: performance.now() - begun });
    } catch (error) {
        postMessage({ number: data.number, error: String(error) });
    }
};
