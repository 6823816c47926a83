// All of the package but how the module is read, which differs between browsers and Node.
import { copyFront, frontOf } from "./bytes.js";

/** So many first bytes are looked at, at most. */
const FRONT = 8192;
/** Most files are told by so many bytes, and of a Blob no more are read then. */
const FIRST = 1024;
const PAGE = 65536;
/** Room for a text that the module writes, of which two stand behind the bytes that it is asked about. */
const TEXT = 256;
/** Then come two numbers, what is needed to decide and room for its ranges, and a text of types. */
const NUMBERS = FRONT + 2 * TEXT;
const NEEDS = NUMBERS + 16;
const RANGES = NEEDS + 24;
const RANGE = 32;
const MOST_RANGES = 80;
const TYPES = RANGES + MOST_RANGES * RANGE;
/** The smallest module with a 64-bit memory. */
const WIDE = new Uint8Array([0, 97, 115, 109, 1, 0, 0, 0, 5, 3, 1, 4, 1]);
const NO_WIDE_MEMORY =
    "hoarvelt-infer needs 64-bit WebAssembly memories, which this JavaScript engine does not have: take Node 24, start Node 20 or 22 with --experimental-wasm-memory64, or take a current Chromium or Firefox";

let infer;
let place;
let room;
/** The text of types that the module sees. */
let held;
/** How many of the rows are built-in. */
let builtIn;

export const supportedExtensions = new Set();
export const supportedMimeTypes = new Set();
/** The types that getMore knows, by their rows. */
export let knownTypes = [];
/** The version of the library. */
export let version = "";

/** Older engines take the number of pages as a number, and later ones as a BigInt. */
const grow = (memory, pages) => {
    try {
        memory.grow(BigInt(pages));
    } catch (fault) {
        if (!(fault instanceof TypeError)) throw fault;
        memory.grow(pages);
    }
};

/** Makes the room behind the module's own memory as large as that, with what stood there. */
const makeRoom = (size) => {
    const missing = Number(place) + size - infer.memory.buffer.byteLength;
    if (missing > 0) grow(infer.memory, Math.ceil(missing / PAGE));
    room = new Uint8Array(infer.memory.buffer, Number(place), size);
};

/** The text that the module writes behind the bytes that it is asked about. */
const textOf = (write, ...asked) => {
    const length = Number(write(...asked, place + BigInt(FRONT), BigInt(TEXT)));
    return new TextDecoder().decode(room.slice(FRONT, FRONT + length));
};

const noModule = (fault) =>
    new Error(`hoarvelt-infer does not find infer.wasm. Copy it from the package's folder to where a bundle stands: ${fault.message}`, { cause: fault });

const refuseUnlessValid = (bytes) => {
    if (!WebAssembly.validate(WIDE) && !WebAssembly.validate(bytes)) throw new Error(NO_WIDE_MEMORY);
};

/** Makes the package ready. `read` gives a promise of the bytes of infer.wasm. */
export const connect = async (read) => {
    const bytes = await read().catch((fault) => {
        throw noModule(fault);
    });
    refuseUnlessValid(bytes);
    begin((await WebAssembly.instantiate(bytes, {})).instance);
};

/** The same at once, so that Node can `require` the package. `read` gives the bytes. */
export const connectAtOnce = (read) => {
    let bytes;
    try {
        bytes = read();
    } catch (fault) {
        throw noModule(fault);
    }
    refuseUnlessValid(bytes);
    begin(new WebAssembly.Instance(new WebAssembly.Module(bytes), {}));
};

const begin = (instance) => {
    infer = instance.exports;
    place = infer.__heap_base.value;
    makeRoom(TYPES);
    builtIn = Number(infer.infer_row_count());
    version = textOf(infer.infer_version);
    const all = Number(infer.infer_more_row_count());
    const typeOfRow = (_, row) =>
        Object.freeze({ ext: textOf(infer.infer_extension, row), mime: textOf(infer.infer_mime_type, row), class: textOf(infer.infer_class_name, infer.infer_class(row)) });
    knownTypes = Object.freeze(Array.from({ length: all }, typeOfRow));
    for (const { ext, mime } of knownTypes.slice(0, builtIn)) {
        supportedExtensions.add(ext);
        supportedMimeTypes.add(mime);
    }
};

/** Copies the first bytes to where the module sees them, and tells how many they are. */
const hand = (input) => BigInt(copyFront(input, FRONT, room));
const ask = (question, input) => question(place, hand(input));

const answerOf = (row) => {
    if (row < 0) return undefined;
    const { ext, mime } = knownTypes[row];
    return { ext, mime };
};
const typeOf = (input) => answerOf(ask(infer.infer_position, input));

export const getMore = (input) => answerOf(ask(infer.infer_more_position, input));

/** Whether a question says yes of one of the first rows with that extension. */
const someRow = (question, input, ext, count) => {
    const size = hand(input);
    return knownTypes.slice(0, count).some((known, row) => known.ext === ext && question(place, size, row) !== 0);
};
export const mayBecome = (input, ext) => someRow(infer.infer_may_become, input, ext, builtIn);
export const moreMayBecome = (input, ext) => someRow(infer.infer_more_may_become, input, ext);

export const sample = (number) => {
    if (!Number.isInteger(number) || !(number in knownTypes)) return undefined;
    const size = Number(infer.infer_sample(number, place, 0n));
    if (size === 0) return undefined;
    // A long one reaches to where a text of types stands.
    makeRoom(Math.max(TYPES, size));
    held = undefined;
    infer.infer_sample(number, place, BigInt(size));
    return room.slice(0, size);
};
export const encoding = (input) => textOf(infer.infer_encoding, place, hand(input)) || undefined;
export const isDecided = (input) => ask(infer.infer_is_decided, input) !== 0;
export const isMoreDecided = (input) => ask(infer.infer_more_is_decided, input) !== 0;

/** Whether no bytes that may follow can change what is told. Of detectors of the caller's nobody knows that. */
const isEnough = (front, { more, detectors }) => detectors.length === 0 && (more ? isMoreDecided(front) : isDecided(front));

/** The options, of which none has another name: what is not known would be left out in silence. */
export const optionsOf = (given) => {
    for (const name of Object.keys(given ?? {})) {
        if (name !== "more" && name !== "detectors") throw new TypeError(`there is no option ${name}: hand over more or detectors`);
    }
    return { more: given?.more ?? false, detectors: given?.detectors ?? [] };
};

/** What the first of the caller's detectors says that says something, and else the library. */
const tell = async (input, { more, detectors }) => {
    for (const detect of detectors) {
        // A copy of its own, so that none changes what the next is asked about.
        const found = await detect(frontOf(input, FRONT).slice());
        if (found !== undefined) return found;
    }
    return more ? getMore(input) : typeOf(input);
};

export const fileTypeFromBuffer = async (input, options) => (options === undefined ? typeOf(input) : tell(input, optionsOf(options)));

/** The same at once, where no detector is asked. */
export const fileTypeAtOnce = (input, options) => {
    const { more, detectors } = optionsOf(options);
    if (detectors.length > 0) throw new TypeError("a detector can be asked of what is awaited alone");
    return more ? getMore(input) : typeOf(input);
};

/** The mistake of a text that describes no types. */
export class TypesError extends SyntaxError {
    constructor(line, column, reason) {
        super(`line ${line}, column ${column}: ${reason}`);
        Object.assign(this, { name: "TypesError", line, column, reason });
    }
}

/** The place of what stands so far behind the bytes that the module is asked about. */
const at = (distance) => place + BigInt(distance);

/** Whether that text stands there, with its zero. */
const isAt = (distance, text) => {
    for (let i = 0; i < text.length; i++) if (room[distance + i] !== text.charCodeAt(i)) return false;
    return room[distance + text.length] === 0;
};

/** The text up to its zero, which is of ASCII. For so few bytes a loop is faster than a TextDecoder, and to make none is faster still. */
const written = (distance, likely) => {
    if (likely !== undefined && isAt(distance, likely)) return likely;
    let text = "";
    for (let from = distance; room[from] > 0; from++) text += String.fromCharCode(room[from]);
    return text;
};

/** Copies the text to where the module sees it, and gives where that is and its length. */
const hold = (text) => {
    if (held !== text) {
        makeRoom(TYPES + text.length);
        room.set(text, TYPES);
        held = text;
    }
    return [at(TYPES), BigInt(text.length)];
};

const evidenceOf = (question, input) => {
    const size = hand(input);
    const row = question(place, size, at(RANGES), BigInt(MOST_RANGES), at(NEEDS));
    const accepting = [row, infer.infer_position(place, size)];
    const numbers = new DataView(room.buffer, room.byteOffset, TYPES);
    const numberAt = (distance) => Number(numbers.getBigUint64(distance, true));
    const wanted = numberAt(NEEDS);
    const ranges = Array.from({ length: Math.min(wanted, MOST_RANGES) }, (_, index) => {
        const from = RANGES + index * RANGE;
        const of = numbers.getInt32(from + 24, true);
        return { place: numberAt(from), length: numberAt(from + 8), step: numberAt(from + 16), type: knownTypes[of], accepts: of >= 0 && accepting.includes(of) };
    });
    return { type: answerOf(row), ranges, wanted, least: numberAt(NEEDS + 8), isExact: room[NEEDS + 16] !== 0 };
};
export const evidence = (input) => evidenceOf(infer.infer_evidence, input);
export const moreEvidence = (input) => evidenceOf(infer.infer_more_evidence, input);

export const Standing = Object.freeze({
    AGREE: "agree",
    NAME_REFINES: "name refines",
    BYTES_REFINE: "bytes refine",
    BYTES_ALONE: "bytes alone",
    NAME_ALONE: "name alone",
    CONTRADICTS: "contradicts",
    NOTHING: "nothing",
});
/** In the order of their numbers. */
const standings = Object.values(Standing);
/** How long each text of what names tell is at most, and how long both texts of a type and a byte are. */
const NAMED_TEXT = 74;
const NAMED_TYPE = 2 * NAMED_TEXT + 1;

/** A type whose texts stand so far behind the bytes that the module is asked about, and are likely those of another. */
const namedTypeAt = (distance, likely) => {
    const mime = written(distance, likely?.mime);
    const ext = written(distance + NAMED_TEXT, likely?.ext) || undefined;
    return mime ? { ext, mime, isOwnName: room[distance + 2 * NAMED_TEXT] !== 0 } : undefined;
};

const encoder = new TextEncoder();

/** Puts a name where the module sees it, and gives where that is and its length. To encode it there is much faster than to make
 *  an array of it, but needs three bytes a code unit, which memory keeps. */
const holdName = (name) => {
    if (typeof name !== "string") return hold(frontOf(name, Infinity).slice());
    if (name.length > FRONT) return hold(encoder.encode(name));
    held = undefined;
    makeRoom(TYPES + 3 * name.length);
    return [at(TYPES), BigInt(encoder.encodeInto(name, room.subarray(TYPES)).written)];
};

/** What can be odd about a name, in the order of the bits. */
const ODDITIES = ["control", "direction", "end", "two extensions"];
export const oddities = (name) => {
    const found = infer.infer_oddities(...holdName(name));
    return ODDITIES.filter((_, bit) => (found >> bit) & 1);
};

export const named = (name, input) => {
    const [given, length] = holdName(name);
    infer.infer_named(given, length, place, hand(input), at(FRONT));
    // To make a DataView takes longer than to read these.
    const row = room[FRONT + 4] | (room[FRONT + 5] << 8) | (room[FRONT + 6] << 16) | (room[FRONT + 7] << 24);
    const typeOfBytes = answerOf(row);
    const type = namedTypeAt(FRONT + 8, typeOfBytes);
    return { standing: standings[room[FRONT]], type, typeOfName: namedTypeAt(FRONT + 8 + NAMED_TYPE, type), typeOfBytes };
};

export const line = (name, input) => {
    const given = holdName(name);
    const size = hand(input);
    const none = [at(TYPES), 0n];
    const distance = TYPES + Number(given[1]);
    const most = 6 * Number(given[1]) + 512;
    makeRoom(distance + most);
    const length = infer.infer_label_write(...given, place, size, 0, 0, 0, ...none, ...none, 0n, at(NUMBERS), at(NUMBERS + 8), at(distance), BigInt(most));
    return new TextDecoder().decode(room.subarray(distance, distance + Number(length) - 1));
};

export class Types {
    #text;

    constructor(text) {
        this.#text = typeof text === "string" ? new TextEncoder().encode(text) : frontOf(text, Infinity).slice();
        if (infer.infer_types_check(...hold(this.#text), at(NUMBERS), at(NUMBERS + 8), at(FRONT), BigInt(TEXT)) === 0n) return;
        const numbers = new DataView(room.buffer, room.byteOffset + NUMBERS, 16);
        throw new TypesError(Number(numbers.getBigUint64(0, true)), Number(numbers.getBigUint64(8, true)), written(FRONT));
    }

    get(input) {
        const text = hold(this.#text);
        const size = BigInt(TEXT);
        const group = infer.infer_types_get(...text, place, hand(input), at(FRONT), size, at(FRONT + TEXT), size);
        return group < 0 ? undefined : { ext: written(FRONT + TEXT), mime: written(FRONT) };
    }

    /** The older name of get. */
    wider(input) {
        return this.get(input);
    }

    line(input) {
        return Number(infer.infer_types_line(...hold(this.#text), place, hand(input))) || undefined;
    }
}

/** Room for each text of a MIME type. */
const MIME = 4096;

/** The bytes of a text. Each code point is one, but DEL stands for those beyond: no MIME type has either. */
const bytesOfText = (text) =>
    typeof text === "string" ? Uint8Array.from(text, (it) => (it.codePointAt(0) > 0xff ? 0x7f : it.codePointAt(0))) : frontOf(text, Infinity).slice();

/** A text that the module writes of bytes of a text, behind these. */
const mimeText = (write, bytes, ...asked) => {
    const given = hold(bytes);
    const distance = TYPES + bytes.length;
    makeRoom(distance + MIME);
    const size = Number(write(...given, ...asked, at(distance), BigInt(MIME)));
    return String.fromCharCode(...room.subarray(distance, distance + size));
};

const Groups = { IMAGE: 1, AUDIO_OR_VIDEO: 2, FONT: 4, ZIP_BASED: 8, ARCHIVE: 16, XML: 32, HTML: 64, SCRIPTABLE: 128, JAVASCRIPT: 256, JSON: 512 };

export class MIMEType {
    #text;
    #parameters;

    constructor(text) {
        this.#text = mimeText(infer.infer_mime_parse, bytesOfText(text));
        if (this.#text === "") throw new SyntaxError(`no MIME type: ${text}`);
        const found = this.#text.slice(this.essence.length).matchAll(/;([^=]*)=(?:"((?:[^"\\]|\\.)*)"|([^;]*))/gs);
        this.#parameters = new Map(Array.from(found, ([, name, quoted, bare]) => [name, quoted === undefined ? bare : quoted.replace(/\\(.)/gs, "$1")]));
    }

    static parse(text) {
        try {
            return new MIMEType(text);
        } catch (fault) {
            if (fault instanceof SyntaxError) return null;
            throw fault;
        }
    }

    get essence() {
        return this.#text.split(";", 1)[0];
    }

    get type() {
        return this.essence.split("/")[0];
    }

    get subtype() {
        return this.essence.split("/")[1];
    }

    get parameters() {
        return new Map(this.#parameters);
    }

    toString() {
        return this.#text;
    }

    #isIn(group) {
        return (infer.infer_mime_groups(...hold(bytesOfText(this.#text))) & group) !== 0;
    }

    isImage() {
        return this.#isIn(Groups.IMAGE);
    }

    isAudioOrVideo() {
        return this.#isIn(Groups.AUDIO_OR_VIDEO);
    }

    isFont() {
        return this.#isIn(Groups.FONT);
    }

    isZipBased() {
        return this.#isIn(Groups.ZIP_BASED);
    }

    isArchive() {
        return this.#isIn(Groups.ARCHIVE);
    }

    isXML() {
        return this.#isIn(Groups.XML);
    }

    isHTML() {
        return this.#isIn(Groups.HTML);
    }

    isScriptable() {
        return this.#isIn(Groups.SCRIPTABLE);
    }

    isJavaScript({ prohibitParameters = false } = {}) {
        return this.#isIn(Groups.JAVASCRIPT) && !(prohibitParameters && this.#parameters.size > 0);
    }

    isJSON() {
        return this.#isIn(Groups.JSON);
    }

    minimize(isSupported = false) {
        return mimeText(infer.infer_mime_minimize, bytesOfText(this.#text), Number(Boolean(isSupported))) || undefined;
    }
}

export const extractMIMEType = (value) => MIMEType.parse(mimeText(infer.infer_mime_extract, bytesOfText(value)));

export const Context = Object.freeze({
    PAGE: "page",
    IMAGE: "image",
    AUDIO_OR_VIDEO: "audio or video",
    FONT: "font",
    PLUGIN: "plugin",
    STYLE: "style",
    SCRIPT: "script",
    TEXT_TRACK: "text track",
    CACHE_MANIFEST: "cache manifest",
});
/** In the order of their numbers, as what a response is fetched for. */
const contexts = Object.values(Context);
const destinations = ["script", "style", "other"];

const numberIn = (names, name) => {
    const number = names.indexOf(name);
    if (number < 0) throw new RangeError(`hand over one of ${names.join(", ")}`);
    return number;
};

const flagsOf = ({ nosniff = false, oldServer = false }) => Number(Boolean(nosniff)) + 2 * Number(Boolean(oldServer));

export const compute = (input, options = {}) => {
    const { contentType = "", context = Context.PAGE } = options;
    const size = hand(input);
    return mimeText(infer.infer_mime_compute, bytesOfText(contentType), flagsOf(options), numberIn(contexts, context), place, size) || undefined;
};

export const isComputeDecided = (input, options = {}) => {
    const size = hand(input);
    return infer.infer_mime_is_decided(...hold(bytesOfText(options.contentType ?? "")), flagsOf(options), place, size) !== 0;
};
export const mayBeScriptable = (input) => ask(infer.infer_mime_may_be_scriptable, input) !== 0;
export const isNosniff = (value) => infer.infer_mime_is_nosniff(...hold(bytesOfText(value))) !== 0;
export const isBlocked = (value, destination) => infer.infer_mime_is_blocked(...hold(bytesOfText(value)), numberIn(destinations, destination)) !== 0;
export const isOldServer = (value) => infer.infer_mime_is_old_server(...hold(bytesOfText(value))) !== 0;

export const fileTypeFromBlob = async (blob, given) => {
    const options = optionsOf(given);
    if (typeof blob?.slice !== "function" || typeof blob.arrayBuffer !== "function") throw new TypeError("hand over a Blob or a File");
    const first = frontOf(await blob.slice(0, FIRST).arrayBuffer(), FRONT);
    if (first.length < FIRST || isEnough(first, options)) return tell(first, options);
    return tell(await blob.slice(0, FRONT).arrayBuffer(), options);
};

/** Reads until the type is decided, the bytes looked at are there, or the end. Gives the type and what was read. */
export const readFront = async (read, given) => {
    const options = optionsOf(given);
    const front = new Uint8Array(FRONT);
    const pieces = [];
    let length = 0;
    while (length < FRONT) {
        const { done, value } = await read();
        if (done) break;
        const bytes = frontOf(value, FRONT - length);
        // A piece without bytes is not kept, or a stream of such pieces would fill the memory.
        if (bytes.length === 0) continue;
        pieces.push(value);
        front.set(bytes, length);
        length += bytes.length;
        if (isEnough(front.subarray(0, length), options)) break;
    }
    return { fileType: await tell(front.subarray(0, length), options), pieces };
};

const readerOf = (stream) => {
    if (typeof stream?.getReader !== "function") throw new TypeError("hand over a ReadableStream");
    return stream.getReader();
};

export const fileTypeFromStream = async (stream, options) => {
    const reader = readerOf(stream);
    try {
        return (await readFront(() => reader.read(), options)).fileType;
    } finally {
        reader.releaseLock();
    }
};

/** What was read, and then the rest, each piece when somebody asks for it. */
const wholeOf = (pieces, reader) =>
    new ReadableStream(
        {
            async pull(controller) {
                const { done, value } = pieces.length > 0 ? { value: pieces.shift() } : await reader.read();
                if (done) controller.close();
                else controller.enqueue(value);
            },
            cancel: (reason) => reader.cancel(reason),
        },
        { highWaterMark: 0 },
    );

export const fileTypeStream = async (stream, given) => {
    const options = optionsOf(given);
    const reader = readerOf(stream);
    try {
        const { fileType, pieces } = await readFront(() => reader.read(), options);
        return Object.assign(wholeOf(pieces, reader), { fileType });
    } catch (fault) {
        // Nobody else can reach what is left. Whether that can be cancelled changes nothing.
        await reader.cancel(fault).catch(() => {});
        throw fault;
    }
};

/** The older names, which the next version leaves out. */
export { getMore as wider, isMoreDecided as isWiderDecided, moreEvidence as widerEvidence, moreMayBecome as mayBecomeWider };
