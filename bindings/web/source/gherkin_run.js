// Calls gherkin_run.wasm as bindings/c/gherkin_run.h describes, with pointers and lengths of 64 bits.

// Most outputs fit into this many bytes, and this many more for each byte of the files.
const FIRST_ROOM = 1 << 18;
const ROOM_FOR_EACH = 8;
// The name of the file that has a fault follows this in the errors.
const BEFORE_NAME = "gherkin_run: ".length;
const SIZES = { text: 16, file: 32, answer: 32 };

const asBytes = (text) => (typeof text === "string" ? new TextEncoder().encode(text) : text);
const asText = (bytes) => new TextDecoder("utf-8", { ignoreBOM: true }).decode(bytes);

// One instance of the module, and its memory.
export class Instance {
    constructor(module) {
        this.exports = new WebAssembly.Instance(module, {}).exports;
    }

    room(length) {
        const at = this.exports.malloc(BigInt(Math.max(length, 1)));
        if (at === 0n) throw new RangeError("out of memory");
        return Number(at);
    }

    // Returns a view of the memory. Views made before the memory grew can't be used any more.
    view(at, length) {
        return new DataView(this.exports.memory.buffer, at, length);
    }

    bytes(at, length) {
        return new Uint8Array(this.exports.memory.buffer, at, length);
    }

    // Copies a text into the memory, and puts its place and length at `at`.
    putText(at, text) {
        const given = asBytes(text);
        const room = this.room(given.length);
        this.bytes(room, given.length).set(given);
        this.view(at, 16).setBigUint64(0, BigInt(room), true);
        this.view(at, 16).setBigUint64(8, BigInt(given.length), true);
    }

    // Copies a list into the memory, and returns its place and length.
    list(values, size, put) {
        const room = this.room(values.length * size);
        values.forEach((value, n) => put(room + n * size, value));
        return [room, values.length];
    }

    // Copies a call into the memory, with room for an output and errors of these lengths.
    prepared(words, files, lengths) {
        return {
            inputs: [
                ...this.list(words, SIZES.text, (at, word) => this.putText(at, word)),
                ...this.list(files, SIZES.file, (at, [name, text]) => {
                    this.putText(at, name);
                    this.putText(at + SIZES.text, text);
                }),
            ],
            rooms: lengths.map((length) => [this.room(length), length]),
            answer: this.room(SIZES.answer),
        };
    }

    // Makes a prepared call. Returns its result, with as much of the texts as there was room for.
    called({ inputs, rooms, answer }) {
        this.exports.gherkin_run(...[...inputs, ...rooms.flat(), answer].map(BigInt));
        const said = this.view(answer, SIZES.answer);
        const [outputLength, errorsLength, nameLength] = [0, 8, 16].map((at) => Number(said.getBigUint64(at, true)));
        const wanted = [outputLength, errorsLength];
        const [output, errors] = rooms.map(([at, length], n) => this.bytes(at, Math.min(wanted[n], length)));
        return {
            wanted,
            status: said.getUint8(28),
            output: asText(output),
            errors: asText(errors),
            file: nameLength === 0 ? null : asText(errors.subarray(BEFORE_NAME, BEFORE_NAME + nameLength)),
            line: said.getUint32(24, true),
        };
    }
}

// Returns a function that runs the program: it takes the arguments, and the files as pairs of a name and a text. Each text is
// a string or bytes. The result has the status, the output, the errors, and the file and the line of a fault. Each run has
// a new instance, so it keeps nothing of earlier runs, even failed ones.
export async function load(bytes) {
    const module = await WebAssembly.compile(bytes);
    return (words, files = []) => {
        const run = (lengths) => {
            const instance = new Instance(module);
            return instance.called(instance.prepared(words, files, lengths));
        };
        const lengths = [files.reduce((sum, [, text]) => sum + ROOM_FOR_EACH * text.length, FIRST_ROOM), FIRST_ROOM];
        const found = run(lengths);
        return found.wanted.every((length, n) => length <= lengths[n]) ? found : run(found.wanted);
    };
}
