// What the tests share: the test data, and generators that say the same in each run.
import { readFileSync } from "node:fs";

export const root = new URL("../../../", import.meta.url);
const linesOf = (name) =>
    readFileSync(new URL(`vectors/${name}`, root), "utf8").trimEnd().split("\n").map((line) => line.split("\t"));

/** The bytes of hexadecimal tokens, each with a count of repetitions after `*` if it has one. */
const decode = (tokens) => {
    if (tokens === "-") return new Uint8Array();
    const parts = tokens.split(" ").map((token) => {
        const [digits, count] = token.split("*");
        return Buffer.from(digits.repeat(Number(count ?? 1)), "hex");
    });
    return new Uint8Array(Buffer.concat(parts));
};

export const rows = linesOf("rows.tsv").map(([group, mime, ext, sample]) => ({
    name: `${group}/${ext}`,
    type: { ext, mime },
    class: group.toLowerCase(),
    sample: sample === "none" ? undefined : decode(sample),
}));
export const samples = rows.filter((row) => row.sample !== undefined);

const typeOfName = new Map(rows.map((row) => [row.name, row.type]));
export const vectors = linesOf("vectors.tsv").map(([name, , row, data]) => ({ name, type: typeOfName.get(row), data: decode(data) }));
export const furtherRows = linesOf("further/rows.tsv").map(([group, mime, ext]) => ({ type: { ext, mime }, class: group.toLowerCase() }));
/** The name, the bytes, and what the wider answer shows: a MIME type and an extension, or "unknown". */
export const furtherVectors = linesOf("further/vectors.tsv").map(([name, data, , shown]) => ({ name, data: decode(data), shown }));

/** The bytes of a name, some of which are written as \xHH. */
const nameOf = (text) =>
    new Uint8Array(Buffer.concat(text.split(/(\\x[0-9A-F]{2})/).map((part) => (part.startsWith("\\x") ? Buffer.from(part.slice(2), "hex") : Buffer.from(part)))));
export const namedVectors = linesOf("named.tsv").map(([name, data, standing, mime]) => ({ name: nameOf(name), data: decode(data), standing, mime }));

/** Whole numbers below a limit, by the generator mulberry32. */
export const generator = (seed) => {
    let state = seed;
    return (limit) => {
        state = (state + 0x6d2b79f5) | 0;
        let mixed = Math.imul(state ^ (state >>> 15), state | 1);
        mixed ^= mixed + Math.imul(mixed ^ (mixed >>> 7), mixed | 61);
        return ((mixed ^ (mixed >>> 14)) >>> 0) % limit;
    };
};

/** What browsers' tests and other programs say of MIME types, and of first bytes. */
export const mimeTypes = linesOf("mime_types.tsv").map(([question, given, wanted]) => ({ question, given: JSON.parse(given), wanted: JSON.parse(wanted) }));
export const sniffed = linesOf("sniffed.tsv").map(([question, given, data, wanted]) => ({ question, given: JSON.parse(given), data: decode(data), wanted: JSON.parse(wanted) }));
