// Asks the module that c/build --target wasm64-unknown-unknown makes about every row of vectors/rows.tsv, and counts the
// differences. usage: node --experimental-wasm-memory64 c/try-wasm.mjs [MODULE]
import { readFileSync } from "node:fs";

const here = new URL(".", import.meta.url);
const path = process.argv[2] ?? new URL("out/wasm64-unknown-unknown/infer.wasm", here);
const module = await WebAssembly.compile(readFileSync(path));
const { exports: infer } = await WebAssembly.instantiate(module, {});
const start = infer.__heap_base.value;
const room = new Uint8Array(infer.memory.buffer, Number(start));

const textOf = (write, row) => {
    const length = Number(write(row, start, 128n));
    return new TextDecoder().decode(room.slice(0, length));
};

/** The bytes of hexadecimal tokens, each with a count of repetitions after `*` if it has one. */
const decode = (tokens) =>
    tokens.split(" ").flatMap((token) => {
        const [digits, count] = token.split("*");
        const bytes = digits.match(/../g).map((pair) => parseInt(pair, 16));
        return Array(Number(count ?? 1)).fill(bytes).flat();
    });

let [compared, differing] = [0, 0];
const same = (what, got, wanted) => {
    compared += 1;
    if (got === wanted) return;
    differing += 1;
    console.log(`${what}: ${got} in place of ${wanted}`);
};

const rows = readFileSync(new URL("../vectors/rows.tsv", here), "utf8").trimEnd().split("\n");
same("imports", WebAssembly.Module.imports(module).length, 0);
same("rows", Number(infer.infer_row_count()), rows.length);
for (const [row, line] of rows.entries()) {
    const [className, mimeType, extension, sample] = line.split("\t");
    same(`extension of ${row}`, textOf(infer.infer_extension, row), extension);
    same(`MIME type of ${row}`, textOf(infer.infer_mime_type, row), mimeType);
    same(`class of ${row}`, textOf(infer.infer_class_name, infer.infer_class(row)), className.toLowerCase());
    if (sample === "none") continue;
    const bytes = decode(sample);
    room.set(bytes);
    same(`position of the sample of ${row}`, infer.infer_position(start, BigInt(bytes.length)), row);
}
console.log(`${compared} answers of the module compared, ${differing} differ`);
process.exitCode = differing === 0 ? 0 : 1;
