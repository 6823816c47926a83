// Times this package, a plain comparison with the magic of ten types and, if it is named, npm's file-type, over the samples
// of all types, each filled up to 8192 bytes, and prints a table. The script speed runs it.
import { readFileSync } from "node:fs";
import { pathToFileURL } from "node:url";

const { fileTypeFromBuffer, isDecided, getMore } = await import("hoarvelt-infer");

const MAGIC = [
    ["jpg", "image/jpeg", [0xff, 0xd8, 0xff]],
    ["png", "image/png", [0x89, 0x50, 0x4e, 0x47]],
    ["gif", "image/gif", [0x47, 0x49, 0x46]],
    ["bmp", "image/bmp", [0x42, 0x4d]],
    ["pdf", "application/pdf", [0x25, 0x50, 0x44, 0x46]],
    ["zip", "application/zip", [0x50, 0x4b, 0x03, 0x04]],
    ["gz", "application/gzip", [0x1f, 0x8b, 0x08]],
    ["elf", "application/x-executable", [0x7f, 0x45, 0x4c, 0x46]],
    ["mp3", "audio/mpeg", [0x49, 0x44, 0x33]],
    ["flac", "audio/x-flac", [0x66, 0x4c, 0x61, 0x43]],
];

const compare = (bytes) => {
    for (const [ext, mime, magic] of MAGIC) {
        if (magic.every((byte, at) => bytes[at] === byte)) return { ext, mime };
    }
    return undefined;
};

const rows = readFileSync(new URL("../../vectors/rows.tsv", import.meta.url), "utf8").trimEnd().split("\n");
const samples = rows.map((line) => line.split("\t")[3]).filter((tokens) => tokens !== "none");
const buffers = samples.map((tokens) => {
    const parts = tokens.split(" ").map((token) => token.split("*"));
    const sample = Buffer.concat(parts.map(([digits, count]) => Buffer.from(digits.repeat(Number(count ?? 1)), "hex")));
    return new Uint8Array(Buffer.concat([sample, Buffer.alloc(8192)]).subarray(0, 8192));
});

/** How many files a second, by the best of five rounds of half a second. */
const rateOf = async (call) => {
    let best = 0;
    for (let round = 0; round < 5; round += 1) {
        const began = performance.now();
        let [count, spent] = [0, 0];
        while (spent < 500) {
            for (const buffer of buffers) await call(buffer);
            count += buffers.length;
            spent = performance.now() - began;
        }
        best = Math.max(best, (count / spent) * 1000);
    }
    return Math.round(best / 1000) * 1000;
};

const calls = {
    "`await fileTypeFromBuffer`": fileTypeFromBuffer,
    "`getMore`": getMore,
    "`isDecided`": isDecided,
    "ten magics compared in JavaScript": compare,
};
if (process.argv[2]) calls["`await fileTypeFromBuffer` of file-type"] = (await import(pathToFileURL(process.argv[2]))).fileTypeFromBuffer;
console.log(`Files a second, Node ${process.version}\n\n| | files a second |\n|---|---|`);
for (const [name, call] of Object.entries(calls)) console.log(`| ${name} | ${(await rateOf(call)).toLocaleString("en")} |`);
