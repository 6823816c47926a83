// Streams, Blobs and files: the same answers, no byte read that is not needed, and no byte lost.
import assert from "node:assert/strict";
import { existsSync, mkdtempSync, openAsBlob, readFileSync, rmSync, truncateSync, writeFileSync } from "node:fs";
import { tmpdir } from "node:os";
import { join } from "node:path";
import { execFileSync } from "node:child_process";
import { Readable } from "node:stream";
import { test } from "node:test";
import { pathToFileURL } from "node:url";
import { fileTypeFromBlob, fileTypeFromFile, fileTypeFromStream, fileTypeStream, isDecided, namedFromFile } from "hoarvelt-infer";
import { samples } from "./support.mjs";

const jpeg = new Uint8Array([0xff, 0xd8, 0xff, 0xe0]);
const JPEG = { ext: "jpg", mime: "image/jpeg" };
const SVG = { ext: "svg", mime: "image/svg+xml" };
const chosen = samples.filter((row) => row.sample.length >= 4 && row.sample.length <= 600).filter((_, at) => at % 8 === 0).slice(0, 10);

/** A stream of these pieces that notes how many were asked for and why it was cancelled. */
const noted = (pieces) => {
    const notes = { asked: 0, cancelled: undefined };
    const stream = new ReadableStream(
        {
            pull(controller) {
                if (notes.asked === pieces.length) return controller.close();
                notes.asked += 1;
                controller.enqueue(pieces[notes.asked - 1]);
            },
            cancel(reason) {
                notes.cancelled = reason;
            },
        },
        { highWaterMark: 0 },
    );
    return { stream, notes };
};

const collect = async (stream) => {
    const pieces = [];
    for await (const piece of stream) pieces.push(piece);
    return Buffer.concat(pieces);
};

const cutsOf = (data) => [
    ...Array.from({ length: data.length + 1 }, (_, at) => [data.subarray(0, at), data.subarray(at)]),
    Array.from(data, (_, at) => data.subarray(at, at + 1)),
];

test("streams that are cut at every byte of ten samples have the type, and are handed on whole", async () => {
    assert.equal(chosen.length, 10);
    for (const { sample, type } of chosen) {
        for (const pieces of cutsOf(sample)) {
            for (const streamOf of [(it) => noted(it).stream, (it) => Readable.from(it, { objectMode: false })]) {
                assert.deepEqual(await fileTypeFromStream(streamOf(pieces)), type);
                const whole = await fileTypeStream(streamOf(pieces));
                assert.deepEqual(whole.fileType, type);
                assert.ok((await collect(whole)).equals(sample));
            }
        }
    }
});

test("a stream is read up to the first piece after which the type is decided", async () => {
    for (const { sample } of chosen) {
        const data = Buffer.concat([sample, Buffer.alloc(9000)]);
        let wanted = 1;
        while (wanted < 8192 && !isDecided(data.subarray(0, wanted))) wanted += 1;
        const pieces = Array.from(data, (_, at) => data.subarray(at, at + 1));
        const [first, second] = [noted(pieces), noted(pieces)];
        await fileTypeFromStream(first.stream);
        assert.equal(first.notes.asked, wanted);
        assert.equal(first.stream.locked, false);
        assert.equal((await collect(first.stream)).length, data.length - wanted);
        const whole = await fileTypeStream(second.stream);
        assert.equal(second.notes.asked, wanted);
        const reader = whole.getReader();
        await reader.read();
        assert.equal(second.notes.asked, wanted);
        await reader.cancel("enough");
        assert.equal(second.notes.cancelled, "enough");
    }
});

test("the wider answer of a stream is given, and the stream is handed on whole", async () => {
    const data = Buffer.from(`<?xml version="1.0"?>${" ".repeat(2000)}<svg></svg>`);
    for (const pieces of [[data], Array.from(data, (_, at) => data.subarray(at, at + 1))]) {
        for (const streamOf of [(it) => noted(it).stream, (it) => Readable.from(it, { objectMode: false })]) {
            assert.deepEqual(await fileTypeFromStream(streamOf(pieces), { more: true }), SVG);
            const whole = await fileTypeStream(streamOf(pieces), { more: true });
            assert.deepEqual(whole.fileType, SVG);
            assert.ok((await collect(whole)).equals(data));
        }
    }
});

test("a stream without bytes, and one with empty pieces, are handed on", async () => {
    for (const pieces of [[], [new Uint8Array()], [new Uint8Array(), jpeg, new Uint8Array()]]) {
        const whole = await fileTypeStream(noted(pieces).stream);
        assert.deepEqual(whole.fileType, pieces.length === 3 ? JPEG : undefined);
        assert.ok((await collect(whole)).equals(Buffer.concat(pieces)));
    }
});

test("pieces that are no bytes, and what is no stream, are refused", async () => {
    for (const piece of ["\xff\xd8\xff", 1, null, {}]) {
        const [first, second] = [noted([piece, jpeg]), noted([piece, jpeg])];
        await assert.rejects(fileTypeFromStream(first.stream), TypeError);
        assert.equal(first.stream.locked, false);
        await assert.rejects(fileTypeStream(second.stream), TypeError);
        assert.ok(second.notes.cancelled instanceof TypeError);
        const readable = Readable.from([piece ?? 1, "x"]);
        await assert.rejects(fileTypeStream(readable), TypeError);
        assert.ok(readable.destroyed);
    }
    for (const other of [undefined, null, "path", jpeg, {}, new Blob([jpeg])]) {
        await assert.rejects(fileTypeFromStream(other), TypeError);
        await assert.rejects(fileTypeStream(other), TypeError);
    }
    const { stream } = noted([jpeg]);
    stream.getReader();
    await assert.rejects(fileTypeFromStream(stream), TypeError);
});

test("the error of a stream is passed on, before the type and after it", async () => {
    const failing = (pieces) => async function* () {
        yield* pieces;
        throw new RangeError("worn out");
    };
    for (const streamOf of [(it) => ReadableStream.from?.(it()) ?? Readable.toWeb(Readable.from(it())), (it) => Readable.from(it())]) {
        await assert.rejects(fileTypeFromStream(streamOf(failing([]))), /worn out/);
        await assert.rejects(fileTypeStream(streamOf(failing([jpeg]))), /worn out/);
        const whole = await fileTypeStream(streamOf(failing([Buffer.concat([jpeg, Buffer.alloc(9000)])])));
        assert.deepEqual(whole.fileType, JPEG);
        await assert.rejects(collect(whole), /worn out/);
    }
});

test("a stream of Node is left open by the one call, and destroyed with the whole of the other", async () => {
    const piece = Buffer.concat([jpeg, Buffer.alloc(2000)]);
    const left = Readable.from([piece, Buffer.from("rest")]);
    assert.deepEqual(await fileTypeFromStream(left), JPEG);
    assert.equal((await collect(left)).toString(), "rest");
    const source = Readable.from([piece, Buffer.from("rest")]);
    const whole = await fileTypeStream(source);
    whole.destroy();
    await new Promise((resolve) => source.once("close", resolve));
    assert.ok(source.destroyed);
});

/** A Blob of so many bytes that has none but the first, and notes what is read of it. */
class Large extends Blob {
    constructor(front, size) {
        super([front]);
        this.stated = size;
        this.reads = [];
    }
    get size() {
        return this.stated;
    }
    slice(begin, end) {
        this.reads.push([begin, end]);
        return new Blob([super.slice(begin, end), new Uint8Array(Math.max(0, end - super.size))]);
    }
    arrayBuffer() {
        throw new Error("read as a whole");
    }
    stream() {
        throw new Error("read as a stream");
    }
}

test("of a Blob of 5 GB the first bytes are read, and no more", async () => {
    const photo = new Large(jpeg, 5e9);
    assert.deepEqual(await fileTypeFromBlob(photo), JPEG);
    assert.deepEqual(photo.reads, [[0, 1024]]);
    const late = new Large(new TextEncoder().encode(`${" ".repeat(3000)}<p>`), 5e9);
    assert.equal((await fileTypeFromBlob(late)).ext, "html");
    assert.deepEqual(late.reads, [[0, 1024], [0, 8192]]);
});

/** How many bytes this process has read of files and the like. */
const read = () => Number(/^rchar: (\d+)$/m.exec(readFileSync("/proc/self/io", "latin1"))[1]);
const cannotCount = openAsBlob && existsSync("/proc/self/io") ? false : "no count of what was read on this system";

test("a file of 5 GB is told as a Blob, and is not read past what is needed", { skip: cannotCount }, async () => {
    const folder = mkdtempSync(join(tmpdir(), "infer-test-"));
    try {
        const path = join(folder, "large");
        for (const [front, type, needed] of [[jpeg, JPEG, 1024], [new TextEncoder().encode(`${" ".repeat(3000)}<p>`), { ext: "html", mime: "text/html" }, 1024 + 8192]]) {
            writeFileSync(path, front);
            truncateSync(path, 5e9);
            const blob = await openAsBlob(path);
            const before = read();
            assert.deepEqual(await fileTypeFromBlob(blob), type);
            // What /proc tells is read by this process too.
            assert.ok(read() - before < needed + 1000, `${read() - before} bytes were read`);
        }
    } finally {
        rmSync(folder, { recursive: true });
    }
});

test("what is no Blob is refused, and so is one whose bytes are none", async () => {
    for (const other of [undefined, null, "blob", jpeg, Buffer.from(jpeg), {}, new Response("x")]) await assert.rejects(fileTypeFromBlob(other), TypeError);
    const hostile = { slice: () => ({ arrayBuffer: async () => "bytes" }), arrayBuffer: async () => "bytes" };
    await assert.rejects(fileTypeFromBlob(hostile), TypeError);
    const generous = { slice: () => new Blob([jpeg, new Uint8Array(1 << 20)]), arrayBuffer: async () => new ArrayBuffer(0) };
    assert.deepEqual(await fileTypeFromBlob(generous), JPEG);
});

test("a file is told by its path, and faults are those of Node", async () => {
    const folder = mkdtempSync(join(tmpdir(), "infer-test-"));
    try {
        const path = join(folder, "photo");
        writeFileSync(path, Buffer.concat([jpeg, Buffer.alloc(20_000)]));
        for (const name of [path, pathToFileURL(path), Buffer.from(path)]) assert.deepEqual(await fileTypeFromFile(name), JPEG);
        writeFileSync(path, "<svg></svg>");
        assert.deepEqual([await fileTypeFromFile(path), await fileTypeFromFile(path, { more: true })], [undefined, SVG]);
        writeFileSync(path, "");
        assert.equal(await fileTypeFromFile(path), undefined);
        await assert.rejects(fileTypeFromFile(join(folder, "none")), { code: "ENOENT" });
        await assert.rejects(fileTypeFromFile(folder), { code: "EISDIR" });
        await assert.rejects(fileTypeFromFile(path + "\0"), TypeError);
        for (const other of [undefined, 3, {}, jpeg.buffer]) await assert.rejects(fileTypeFromFile(other), TypeError);
        const image = join(folder, "photo.png");
        writeFileSync(image, jpeg);
        for (const name of [image, pathToFileURL(image), Buffer.from(image)]) assert.equal((await namedFromFile(name)).standing, "contradicts");
        await assert.rejects(namedFromFile(join(folder, "none.png")), { code: "ENOENT" });
        for (const other of [undefined, 3, {}, jpeg.buffer]) await assert.rejects(namedFromFile(other), TypeError);
    } finally {
        rmSync(folder, { recursive: true });
    }
});

test("what is no regular file is a fault at once, and holds no thread of Node", { timeout: 120_000 }, async () => {
    const folder = mkdtempSync(join(tmpdir(), "infer-test-"));
    try {
        const fifos = [1, 2, 3, 4, 5].map((number) => join(folder, `fifo ${number}`));
        execFileSync("mkfifo", fifos);
        for (const path of [...fifos, "/dev/null"]) await assert.rejects(fileTypeFromFile(path), { code: "ENOTSUP", path });
        writeFileSync(join(folder, "photo"), jpeg);
        assert.deepEqual(await fileTypeFromFile(join(folder, "photo")), JPEG);
    } finally {
        rmSync(folder, { recursive: true });
    }
});
