// The answers, by the test data of the repository, and what callers can hand over as bytes.
import assert from "node:assert/strict";
import { mkdtempSync, rmSync, writeFileSync } from "node:fs";
import { tmpdir } from "node:os";
import { join } from "node:path";
import { test } from "node:test";
import * as infer from "hoarvelt-infer";
import * as aliases from "hoarvelt-infer/aliases";
import { furtherRows, furtherVectors, generator, mimeTypes, namedVectors, rows, samples, sniffed, vectors } from "./support.mjs";

const { fileTypeFromBuffer, isDecided, isMoreDecided, getMore } = infer;
const JPEG = { ext: "jpg", mime: "image/jpeg" };
const jpeg = new Uint8Array([0xff, 0xd8, 0xff, 0xe0]);

test("each sample has the type of its row", async () => {
    assert.equal(samples.length, rows.length - 2);
    for (const { type, sample } of samples) {
        assert.deepEqual(await fileTypeFromBuffer(sample), type);
        assert.deepEqual(await infer.fileTypeFromBlob(new Blob([sample])), type);
        assert.deepEqual(await infer.fileTypeFromStream(new Blob([sample]).stream()), type);
    }
});

test("the sets have the extensions and MIME types of the rows", () => {
    assert.deepEqual([...infer.supportedExtensions], [...new Set(rows.map((row) => row.type.ext))]);
    assert.deepEqual([...infer.supportedMimeTypes], [...new Set(rows.map((row) => row.type.mime))]);
    assert.deepEqual(infer.knownTypes, [...rows, ...furtherRows].map((row) => ({ ...row.type, class: row.class })));
    assert.ok(Object.isFrozen(infer.knownTypes) && Object.isFrozen(infer.knownTypes[0]));
});

test("samples have their types, and what can come of a beginning is said", () => {
    for (const [number, { ext, mime }] of infer.knownTypes.entries()) {
        const data = infer.sample(number);
        const [row, isFurther] = [rows[number], number >= rows.length];
        if (!isFurther) assert.deepEqual(data, row.sample && new Uint8Array(row.sample), ext);
        else if (data.length <= 8192) assert.deepEqual(getMore(data), { ext, mime });
        for (let at = 0; at <= Math.min(data?.length ?? -1, 8193); at += 1) {
            const front = data.subarray(0, at);
            assert.ok(infer.moreMayBecome(front, ext) && (isFurther || infer.mayBecome(front, ext)), `${ext} ${at}`);
        }
    }
    for (const wrong of [-1, infer.knownTypes.length, 1.5, NaN, "length", undefined]) assert.equal(infer.sample(wrong), undefined);
    const bytes = (text) => new TextEncoder().encode(text);
    assert.deepEqual([infer.mayBecome(bytes("G"), "jpg"), infer.mayBecome(bytes(" <"), "html"), infer.mayBecome(bytes(""), "svg")], [false, true, false]);
    assert.deepEqual([infer.moreMayBecome(bytes(""), "svg"), infer.moreMayBecome(bytes(""), "none")], [true, false]);
    assert.throws(() => infer.mayBecome("text", "jpg"), TypeError);
    assert.match(infer.version, /^\d+\.\d+\.\d+$/);
});

test("the wider answer is given where it is asked for", async () => {
    for (const { name, data } of furtherVectors) {
        assert.deepEqual(await fileTypeFromBuffer(data, { more: true }), getMore(data), name);
        assert.deepEqual(await infer.fileTypeFromBlob(new Blob([data]), { more: true }), getMore(data), name);
        assert.deepEqual(await infer.fileTypeFromStream(new Blob([data]).stream(), { more: true }), getMore(data), name);
        for (const options of [undefined, {}, { more: false }]) assert.deepEqual(await fileTypeFromBuffer(data, options), await fileTypeFromBuffer(data), name);
    }
});

test("detectors of the caller's are asked first, each about bytes of its own", async () => {
    const own = Object.freeze({ ext: "own", mime: "image/own" });
    const asked = [];
    const options = {
        detectors: [
            (front) => {
                asked.push(front.length);
                front.fill(0);
            },
            async (front) => (front[0] === 0xff && front.length > 4 ? own : undefined),
        ],
    };
    const long = new Uint8Array(20_000).fill(0xff);
    assert.equal(await fileTypeFromBuffer(long, options), own);
    assert.deepEqual([long[0], await fileTypeFromBuffer(jpeg, options), await fileTypeFromBuffer(new Uint8Array(), options)], [0xff, JPEG, undefined]);
    assert.equal(await infer.fileTypeFromBlob(new Blob([long]), options), own);
    assert.equal(await infer.fileTypeFromStream(new Blob([jpeg, long]).stream(), options), own);
    assert.deepEqual(asked, [8192, 4, 0, 8192, 8192]);
    const fault = new Error("mine");
    await assert.rejects(fileTypeFromBuffer(jpeg, { detectors: [() => Promise.reject(fault)] }), fault);
    await assert.rejects(infer.fileTypeStream(new Blob([jpeg]).stream(), { detectors: [() => { throw fault; }] }), fault);
    await assert.rejects(fileTypeFromBuffer(jpeg, { detectors: ["none"] }), TypeError);
});

test("each vector has its type", async () => {
    for (const { name, type, data } of vectors) {
        if (data.length <= 8192) assert.deepEqual(await fileTypeFromBuffer(data), type, name);
    }
});

test("each vector of the further rows has its wider answer", () => {
    for (const { name, data, shown } of furtherVectors) {
        if (data.length > 8192) continue;
        const found = getMore(data);
        assert.equal(found ? `${found.mime} ${found.ext}` : "unknown", shown, name);
    }
});

test("each name and its bytes have their standing and their type", () => {
    assert.ok(namedVectors.length > 900);
    for (const { name, data, standing, mime } of namedVectors) {
        const found = infer.named(name, data);
        assert.deepEqual([found.standing, found.type?.mime ?? "-", found.typeOfBytes], [standing, mime, getMore(data)], Buffer.from(name).toString());
        if (Buffer.from(Buffer.from(name).toString()).equals(name)) assert.deepEqual(infer.named(Buffer.from(name).toString(), data), found);
    }
    assert.deepEqual(new Set(namedVectors.map((it) => it.standing)), new Set(Object.values(infer.Standing)));
    const script = new TextEncoder().encode("import os\n");
    assert.equal(infer.line("main\n.py", script), "main\\u000a.py: text/x-python py, us-ascii");
    assert.equal(infer.line("\u{202e}".repeat(20000), script), `${"\\u202e".repeat(20000)}: text/plain txt, us-ascii`);
});

test("a name has a type of its own, and may be odd", () => {
    const { AGREE, BYTES_ALONE, BYTES_REFINE, CONTRADICTS } = infer.Standing;
    const json = { ext: "json", mime: "application/json" };
    assert.deepEqual(infer.named("notes.txt", new TextEncoder().encode('{"a": 1}')), {
        standing: BYTES_REFINE,
        type: { ...json, isOwnName: false },
        typeOfName: { ext: "txt", mime: "text/plain", isOwnName: false },
        typeOfBytes: json,
    });
    assert.deepEqual(infer.named("a.dz", new Uint8Array([0x1f, 0x8b, 8])).type, { ext: undefined, mime: "application/x-dictzip", isOwnName: true });
    for (const name of ["", ".", "/", "a.jpg.", "a.jpg\0", "a.jpg\0.txt", "a".repeat(5000), ".".repeat(70_000), "a.j\u0440g"]) {
        assert.equal(infer.named(name, jpeg).standing, BYTES_ALONE, name);
    }
    for (const name of ["a.jpg", "A.JPG~", "b/a.jpg", "b\\a.jpg", `${"b/".repeat(50_000)}a.jpg`, "\ud800.jpg"]) assert.equal(infer.named(name, jpeg).standing, AGREE);
    assert.equal(infer.named("a.png", jpeg).standing, CONTRADICTS);
    for (const name of [undefined, 3, {}, ["a.jpg"]]) assert.throws(() => infer.named(name, jpeg), TypeError);
    assert.throws(() => infer.named("a.jpg", "text"), TypeError);
});

const OWN_TYPES = `# extension MIME type class parent signature \u2014 mine
qoi   image/qoi        image -   14: @0 "qoif"
myapp application/x-my app   zip 42: @30 "manifest.my"
flow  text/x-flow      text  xml root: flow or flows
`;

test("types of a text answer before the further ones", () => {
    const bytes = (text) => new TextEncoder().encode(text);
    const own = new infer.Types(OWN_TYPES);
    const none = new infer.Types("");
    const large = new infer.Types(bytes("# a remark that is longer than a page of memory\n".repeat(5000) + OWN_TYPES));
    for (const types of [own, large]) {
        assert.deepEqual(types.get(bytes("qoif0123456789")), { ext: "qoi", mime: "image/qoi" });
        assert.deepEqual(types.get(bytes(`PK\x03\x04${"0".repeat(26)}manifest.my?`)), { ext: "myapp", mime: "application/x-my" });
        assert.deepEqual(types.get(bytes("<?xml version='1.0'?><flows>")), { ext: "flow", mime: "text/x-flow" });
        assert.equal(types.get(new ArrayBuffer(0)), undefined);
        const lines = types === own ? 0 : 5000;
        const told = ["qoif0123456789", "<?xml version='1.0'?><flows>", "GIF89a", ""].map((text) => types.line(bytes(text)));
        assert.deepEqual(told, [lines + 2, lines + 4, undefined, undefined]);
    }
    for (const { name, data } of furtherVectors) {
        for (const types of [own, none]) if (types.line(data) === undefined) assert.deepEqual(types.get(data), getMore(data), name);
    }
    const name = "x".repeat(127);
    assert.deepEqual(new infer.Types(`${name} ${name}/${name} doc - 1: @0 00`).get(new Uint8Array(1)), { ext: name, mime: `${name}/${name}` });
    assert.throws(() => own.get("text"), TypeError);
});

test("a mistake in a text of types has a place and a reason", () => {
    const told = [
        ["qoi image/qoi picture - 14: @0 00", 1, 15, "unknown class"],
        ['\n\nqoi image/qoi image - 14: @0 "qoif\n', 3, 30, "quotes do not close"],
        ["\uFEFFa b/c app - 1: @0 00", 1, 1, "no extension"],
        [`${OWN_TYPES}a`, 5, 2, "a type has an extension, a MIME type, a class, a parent and a signature"],
        [Uint8Array.of(0), 1, 1, "no extension"],
    ];
    for (const [text, line, column, reason] of told) {
        const message = `line ${line}, column ${column}: ${reason}`;
        assert.throws(() => new infer.Types(text), { name: "TypesError", message, line, column, reason });
        assert.throws(() => new infer.Types(text), (fault) => fault instanceof SyntaxError && fault instanceof infer.TypesError);
    }
    for (const other of [undefined, null, 1, ["qoi"], {}]) assert.throws(() => new infer.Types(other), TypeError);
});

test("an encoding is that of the standard decoder", () => {
    const below = generator(9);
    for (let round = 0; round < 20_000; round += 1) {
        const data = new TextEncoder().encode(Array.from({ length: below(30) }, () => "a\né€𐍈"[below(5)]).join(""));
        if (data.length > 0 && below(2) === 0) data[below(data.length)] = 128 + below(128);
        const cut = data.subarray(0, below(data.length + 1));
        let wanted = cut.length === 0 ? undefined : cut.every((byte) => byte < 128) ? "us-ascii" : "utf-8";
        if (cut.length > 1 && cut[0] + cut[1] === 0xFF + 0xFE) wanted = cut[0] === 0xFF ? "utf-16le" : "utf-16be";
        try {
            if (wanted === "utf-8") new TextDecoder("utf-8", { fatal: true }).decode(cut, { stream: true });
        } catch {
            wanted = undefined;
        }
        assert.equal(infer.encoding(cut), wanted, [...cut].join(" "));
    }
    assert.equal(infer.encoding(Uint8Array.of(0xFF, 0xFE, 0x61, 0)), "utf-16le");
    assert.equal(infer.encoding(Uint8Array.of(0x61, 0, 0x62)), undefined);
});

test("what is decided stays the answer, whatever follows", async () => {
    const below = generator(7);
    for (const { sample, type } of samples) {
        for (const more of [0, 200, 1100]) {
            const data = new Uint8Array(sample.length + more);
            data.set(sample);
            if (!isDecided(data)) continue;
            const longer = new Uint8Array(data.length + 300).map(() => below(256));
            longer.set(data);
            assert.deepEqual(await fileTypeFromBuffer(longer), type);
        }
    }
    let decided = 0;
    for (const { data } of furtherVectors) {
        if (!isMoreDecided(data)) continue;
        decided += 1;
        const longer = new Uint8Array(data.length + 300).map(() => below(256));
        longer.set(data);
        assert.deepEqual(getMore(longer), getMore(data));
    }
    assert.ok(decided > 20, `${decided}`);
    // XML is settled by its first bytes, and what kind of XML it is by its root element.
    const xml = new TextEncoder().encode('<?xml version="1.0"?>'.padEnd(1100));
    assert.deepEqual([isDecided(xml), isMoreDecided(xml)], [true, false]);
    assert.equal(isDecided(new Uint8Array()), false);
    assert.equal(isDecided(new Uint8Array(1 << 20)), true);
});

test("evidence names the bytes that decide", () => {
    const png = new Uint8Array(300);
    png.set([0x89, 0x50, 0x4e, 0x47, 0x0d, 0x0a, 0x1a, 0x0a]);
    const tar = new Uint8Array(300);
    tar[0] = 0x89;
    tar.set(new TextEncoder().encode("ustar"), 257);
    const first = [1, 0, undefined];
    const byMobi = [1, 60, "mobi"];
    const byPNG = [4, 0, "png"];
    const told = [
        [infer.evidence, new Uint8Array(), [], 0, true],
        [infer.evidence, new TextEncoder().encode("MZ"), [[2, 0, "exe"]], 2, false],
        [infer.evidence, jpeg, [[3, 0, "jpg"]], 3, true],
        [infer.moreEvidence, jpeg, [[3, 0, "jpg"], [1, 3, "jls"]], 3, true],
        // From 61 bytes on there is one at 60, which is no B of BOOKMOBI.
        [infer.evidence, png.subarray(0, 60), [byPNG], 4, true],
        [infer.evidence, png.subarray(0, 61), [byPNG, byMobi], 4, false],
        [infer.evidence, png, [byPNG, byMobi], 4, false],
        [infer.moreEvidence, png, [byPNG, byMobi, [300, 0, "apng"]], 4, true],
        [infer.evidence, tar, [[5, 257, "tar"], first, byMobi, [1, 1, "png"], [1, 8, "webp"], [5, 0, "heif"], [1, 12, "mov"]], 262, false],
    ];
    for (const [tell, data, ranges, least, isExact] of told) {
        const found = tell(data);
        assert.deepEqual(found.ranges.map((it) => [it.length, it.place, it.type?.ext]), ranges);
        assert.deepEqual([found.wanted, found.least, found.isExact], [ranges.length, least, isExact]);
        for (const it of found.ranges) assert.equal(it.accepts, it.type !== undefined && it.type.ext === found.type.ext);
    }
    assert.equal(infer.evidence(jpeg).ranges[0].type, infer.knownTypes.find((it) => it.ext === "jpg"));
    assert.throws(() => infer.evidence("text"), TypeError);
    // A text of types that was asked before is asked again.
    const types = new infer.Types('own own/own app - 1: @0 "o"');
    infer.evidence(png);
    assert.deepEqual(types.get(new TextEncoder().encode("o")), { ext: "own", mime: "own/own" });
});

const placesOf = ({ place, length, step }) => Array.from({ length }, (_, at) => place + at * step);

test("what is no evidence changes no answer", async () => {
    const next = generator(68);
    for (const number of infer.knownTypes.keys()) {
        const data = infer.sample(number) ?? new Uint8Array();
        for (const [ask, tell] of [[fileTypeFromBuffer, infer.evidence], [getMore, infer.moreEvidence]]) {
            const found = tell(data);
            assert.deepEqual([found.type, found.wanted], [await ask(data), found.ranges.length]);
            const needed = Math.max(found.least, ...found.ranges.map((it) => placesOf(it).at(-1) + 1));
            for (let round = 0; round < 8; round += 1) {
                const other = Uint8Array.from({ length: found.isExact ? data.length : needed + next(400) }, () => next(256));
                for (const it of found.ranges.flatMap(placesOf)) other[it] = data[it];
                assert.deepEqual(await ask(other), found.type, `${other} beside ${data}`);
            }
        }
    }
});

test("the first 8192 bytes are looked at", async () => {
    const late = new TextEncoder().encode(`${" ".repeat(8190)}<p>`);
    assert.equal(await fileTypeFromBuffer(late), undefined);
    assert.equal((await fileTypeFromBuffer(late.subarray(1))).ext, "html");
    assert.deepEqual(await fileTypeFromBuffer(Buffer.concat([jpeg, Buffer.alloc(1 << 26)])), JPEG);
});

test("bytes can be handed over in every kind of buffer and view", async () => {
    const shared = new Uint8Array(new SharedArrayBuffer(4));
    shared.set(jpeg);
    const padded = new Uint8Array([1, 2, ...jpeg, 3]);
    const kinds = [jpeg, jpeg.buffer, Buffer.from(jpeg), new DataView(jpeg.buffer), new Uint16Array(jpeg.buffer), shared, shared.buffer,
        new DataView(shared.buffer), padded.subarray(2, 6), new DataView(padded.buffer, 2, 4)];
    for (const kind of kinds) assert.deepEqual(await fileTypeFromBuffer(kind), JPEG);
    for (const nothing of [new Uint8Array(), new ArrayBuffer(0), new SharedArrayBuffer(0)]) assert.equal(await fileTypeFromBuffer(nothing), undefined);
});

test("a detached buffer and its views are refused", async () => {
    const data = new Uint8Array(jpeg);
    const { buffer } = data;
    const view = new DataView(buffer);
    structuredClone(buffer, { transfer: [buffer] });
    for (const gone of [buffer, data, view]) {
        await assert.rejects(fileTypeFromBuffer(gone), TypeError);
        assert.throws(() => getMore(gone), TypeError);
        assert.throws(() => isDecided(gone), TypeError);
        assert.throws(() => isMoreDecided(gone), TypeError);
    }
});

test("what is no bytes is refused", async () => {
    const others = [undefined, null, 1, 1n, "\xff\xd8\xff", [0xff, 0xd8, 0xff], {}, { byteLength: 4, length: 4, buffer: jpeg.buffer }, new Proxy(jpeg, {}),
        Object.create(Uint8Array.prototype), Object.create(ArrayBuffer.prototype), () => jpeg, Symbol("bytes"), new Blob([jpeg]), new Map()];
    for (const other of others) {
        await assert.rejects(fileTypeFromBuffer(other), (fault) => fault instanceof TypeError && fault.message.startsWith("hand over bytes: "));
        assert.throws(() => getMore(other), TypeError);
        assert.throws(() => isDecided(other), TypeError);
    }
});

test("a view that lies about itself is believed in nothing", async () => {
    class Liar extends Uint8Array {
        get length() { throw new Error("asked"); }
        get byteLength() { return 2 ** 40; }
        get byteOffset() { return -1; }
        get buffer() { return new ArrayBuffer(1); }
        get [Symbol.toStringTag]() { return "DataView"; }
        static get [Symbol.species]() { throw new Error("asked"); }
        subarray() { throw new Error("asked"); }
    }
    const liar = new Liar(4);
    for (const [at, byte] of jpeg.entries()) liar[at] = byte;
    assert.deepEqual(await fileTypeFromBuffer(liar), JPEG);
});

test("an answer is the caller's own", async () => {
    const found = await fileTypeFromBuffer(jpeg);
    found.mime = "text/html";
    assert.deepEqual(await fileTypeFromBuffer(jpeg), JPEG);
});

/** A sample with some bytes changed and cut or with bytes after it, or noise. */
const hostile = (below) => {
    const { sample } = samples[below(samples.length)];
    const data = new Uint8Array(below(4) === 0 ? below(600) : Math.max(0, sample.length + below(40) - 20));
    if (below(8) === 0) data.fill(below(2) * 255);
    else for (let at = 0; at < data.length; at += 1) data[at] = below(256);
    if (below(8) !== 0) data.set(sample.subarray(0, data.length));
    for (let left = below(4); left > 0 && data.length > 0; left -= 1) data[below(data.length)] = [0, 255, 128, below(256)][below(4)];
    return data;
};

test("100,000 hostile buffers are answered, and no answer depends on the buffers before it", () => {
    const below = generator(20_260_000);
    const known = new Set(rows.map((row) => `${row.type.mime} ${row.type.ext}`).concat(furtherVectors.map((it) => it.shown)));
    let [recognised, last, lastShown] = [0, new Uint8Array(), "unknown"];
    const shownOf = (data) => {
        const found = getMore(data);
        return found ? `${found.mime} ${found.ext}` : "unknown";
    };
    for (let count = 0; count < 100_000; count += 1) {
        const data = hostile(below);
        const shown = shownOf(data);
        assert.ok(shown === "unknown" || known.has(shown), shown);
        assert.equal(typeof isDecided(data), "boolean");
        assert.equal(typeof isMoreDecided(data), "boolean");
        // The buffer before, once more, after other bytes stood in its place.
        assert.equal(shownOf(last), lastShown);
        [last, lastShown, recognised] = [data, shown, recognised + (shown !== "unknown")];
    }
    assert.ok(recognised > 10_000 && recognised < 95_000, `${recognised} were recognised`);
});

test("the aliases lead to extensions that are known", () => {
    assert.equal(aliases.extensions.get("jpeg"), "jpg");
    assert.equal(aliases.browserTypes.get("font/woff2"), "woff2");
    assert.equal(aliases.builtOn.get("svg"), "xml");
    assert.equal(aliases.mimeTypes.get("image/jpg"), "jpg");
    const maps = [aliases.extensions, aliases.mimeTypes, aliases.browserTypes, aliases.builtOn];
    for (const target of maps.flatMap((map) => [...map.values()])) assert.ok(infer.supportedExtensions.has(target), target);
});

const joined = (values) => values.map((value) => value.replace(/^[\t\n\r ]+|[\t\n\r ]+$/g, "")).join(", ");
const groupsOf = (found) =>
    Object.entries({
        image: found.isImage(),
        "audio or video": found.isAudioOrVideo(),
        font: found.isFont(),
        "ZIP-based": found.isZipBased(),
        archive: found.isArchive(),
        XML: found.isXML(),
        HTML: found.isHTML(),
        scriptable: found.isScriptable(),
        JavaScript: found.isJavaScript(),
        JSON: found.isJSON(),
    }).flatMap(([name, isIn]) => (isIn ? [name] : []));

test("MIME types are those of browsers' tests", () => {
    const { MIMEType } = infer;
    const scripts = ["audioworklet", "paintworklet", "script", "serviceworker", "sharedworker", "worker"];
    const asked = {
        parse([text], wanted) {
            const found = MIMEType.parse(text);
            assert.equal(found && String(found), wanted, text);
            assert.equal(String(MIMEType.parse(Uint8Array.from(text, (it) => (it > "\xff" ? 0x7f : it.charCodeAt(0))))), String(found));
            if (!found) return assert.throws(() => new MIMEType(text), SyntaxError);
            const again = [...found.parameters].map(([name, value]) => `;${name}="${value.replace(/["\\]/g, "\\$&")}"`).join("");
            return assert.equal(String(new MIMEType(`${found.type}/${found.subtype}${again}`)), wanted);
        },
        groups: ([text], wanted) => assert.deepEqual(groupsOf(new MIMEType(text)), wanted, text),
        minimize: ([text, supported], wanted) => {
            const found = new MIMEType(text);
            assert.equal(found.minimize(supported.includes(found.essence)) ?? "", wanted, text);
        },
        extract: (values, wanted) => assert.equal(infer.extractMIMEType(joined(values))?.toString() ?? null, wanted, values),
        nosniff: (values, wanted) => assert.equal(infer.isNosniff(joined(values)), wanted, values),
        blocked([options, types, name], wanted) {
            const destination = scripts.includes(name) ? "script" : name === "style" ? "style" : "other";
            assert.equal(infer.isNosniff(joined(options)) && infer.isBlocked(joined(types), destination), wanted, name);
        },
    };
    for (const { question, given, wanted } of mimeTypes) asked[question]?.(given, wanted);
    assert.equal(String(new MIMEType("a/b;c=\u20ac;c=d")), "a/b;c=d");
    assert.ok(new MIMEType("text/javascript;a=b").isJavaScript() && !new MIMEType("text/javascript;a=b").isJavaScript({ prohibitParameters: true }));
    assert.throws(() => new MIMEType(1), TypeError);
    assert.equal(MIMEType.parse(`a/${"b".repeat(4094)}`), null);
});

test("computed types are those of other programs", () => {
    const { Context, compute } = infer;
    let [due, told] = [0, 0];
    const asked = {
        unknown: ([isScriptable], data) => compute(data, { nosniff: !isScriptable }),
        text_or_binary: (_, data) => compute(data, { contentType: "text/plain", oldServer: true }),
        image: (_, data) => compute(data, { context: Context.IMAGE }),
        audio_video: (_, data) => compute(data, { context: Context.AUDIO_OR_VIDEO }),
        font: (_, data) => compute(data, { context: Context.FONT }),
        compute: ([contentType, nosniff, oldServer], data) => compute(data, { contentType: contentType ?? "", nosniff, oldServer }),
        context: ([name, contentType], data) => compute(data, { contentType: contentType ?? "", context: name === "browsing" ? Context.PAGE : name }),
        apache_bug: ([value]) => infer.isOldServer(value),
    };
    for (const { question, given, data, wanted } of sniffed) {
        if (question in asked) assert.equal(asked[question](given, data) ?? null, wanted === "-" ? null : wanted, `${question} ${given}`);
        if (question === "may_be_scriptable") assert.ok(infer.mayBeScriptable(data) || !wanted);
        if (question !== "decided") continue;
        const [contentType, nosniff, oldServer] = given;
        const isDecided = infer.isComputeDecided(data, { contentType: contentType ?? "", nosniff, oldServer });
        assert.ok(wanted || !isDecided);
        [due, told] = [due + Number(wanted), told + Number(isDecided)];
    }
    assert.ok(told >= due - due / 4);
    assert.throws(() => compute(new Uint8Array(), { context: "window" }), RangeError);
    assert.throws(() => compute("text"), TypeError);
});

test("an option of another name is refused, and null is none", async () => {
    const gif = new TextEncoder().encode("GIF89a");
    for (const options of [{ customDetectors: [] }, { signal: undefined }, { more: true, x: 1 }]) {
        const asked = [() => fileTypeFromBuffer(gif, options), () => infer.fileTypeFromBlob(new Blob([gif]), options), () => infer.fileTypeFromStream(new Blob([gif]).stream(), options)];
        for (const ask of asked) await assert.rejects(ask, /^TypeError: there is no option/);
        const stream = new Blob([gif]).stream();
        await assert.rejects(() => infer.fileTypeStream(stream, options), TypeError);
        assert.equal((await infer.fileTypeFromStream(stream)).ext, "gif");
    }
    for (const options of [null, undefined, {}, { more: undefined }]) assert.equal((await fileTypeFromBuffer(gif, options)).ext, "gif");
});

test("a name is odd by what misleads", () => {
    const known = [["", []], ["a.png", []], ["a\n.png", ["control"]], ["\u202egnp.exe", ["direction"]], ["a.png ", ["end"]], ["shell.php.", ["end"]], ["shell.php.jpg", ["two extensions"]]];
    for (const [name, wanted] of [...known, ["\x7f\u2066.php.jpg", ["control", "direction", "two extensions"]]]) {
        assert.deepEqual(infer.oddities(name), wanted, name);
        assert.deepEqual(infer.oddities(new TextEncoder().encode(name)), wanted, name);
    }
    assert.throws(() => infer.oddities(5), TypeError);
});

test("the older names are those that took their place", () => {
    const older = { wider: "getMore", isWiderDecided: "isMoreDecided", widerEvidence: "moreEvidence", mayBecomeWider: "moreMayBecome" };
    for (const [name, newer] of Object.entries(older)) assert.equal(infer[name], infer[newer], name);
    assert.deepEqual(new infer.Types("").wider(new TextEncoder().encode("GIF89a")), getMore(new TextEncoder().encode("GIF89a")));
});

test("a file is told at once as it is awaited", async () => {
    const folder = mkdtempSync(join(tmpdir(), "infer-test-"));
    try {
        for (const { type, sample } of samples) {
            const path = join(folder, "file");
            writeFileSync(path, sample);
            assert.deepEqual(infer.fileTypeFromFileSync(path), await infer.fileTypeFromFile(path), type.mime);
            assert.deepEqual(infer.fileTypeFromFileSync(path, { more: true }), await infer.fileTypeFromFile(path, { more: true }), type.mime);
        }
        assert.throws(() => infer.fileTypeFromFileSync(folder), { code: "EISDIR" });
        assert.throws(() => infer.fileTypeFromFileSync(join(folder, "none")), { code: "ENOENT" });
        assert.throws(() => infer.fileTypeFromFileSync(join(folder, "file"), { detectors: [() => undefined] }), TypeError);
    } finally {
        rmSync(folder, { recursive: true });
    }
});
