// The package as Node takes it: with files and Node's own streams.
import { closeSync, constants, fstatSync, openSync, readFileSync, readSync, statSync } from "node:fs";
import { open, stat } from "node:fs/promises";
import { Readable } from "node:stream";
import { fileURLToPath } from "node:url";
import * as core from "./core.js";

const FRONT = 8192;

core.connectAtOnce(() => readFileSync(new URL("infer.wasm", import.meta.url)));

export {
    Context,
    MIMEType,
    Standing,
    Types,
    TypesError,
    compute,
    encoding,
    evidence,
    extractMIMEType,
    fileTypeFromBlob,
    fileTypeFromBuffer,
    getMore,
    isBlocked,
    isComputeDecided,
    isDecided,
    isMoreDecided,
    isNosniff,
    isOldServer,
    isWiderDecided,
    knownTypes,
    line,
    mayBeScriptable,
    mayBecome,
    mayBecomeWider,
    moreEvidence,
    moreMayBecome,
    named,
    oddities,
    sample,
    supportedExtensions,
    supportedMimeTypes,
    version,
    wider,
    widerEvidence,
} from "./core.js";

/** What has no front of its own to read is a fault: opening a FIFO would wait, and hold one of Node's few threads. */
const refuseUnlessRegular = (about, path) => {
    if (about.isFile()) return;
    const [code, why] = about.isDirectory() ? ["EISDIR", "illegal operation on a directory"] : ["ENOTSUP", "not a regular file"];
    throw Object.assign(new Error(`${code}: ${why}, open '${path}'`), { code, syscall: "open", path });
};

const AT_ONCE = constants.O_RDONLY | constants.O_NONBLOCK | constants.O_NOCTTY;

/** The first bytes of a regular file. */
const frontOfFile = async (path) => {
    // A device can act as soon as it is opened. By then the path may name another file, so that is asked again.
    refuseUnlessRegular(await stat(path), path);
    const file = await open(path, AT_ONCE);
    try {
        refuseUnlessRegular(await file.stat(), path);
        const front = new Uint8Array(FRONT);
        let length = 0;
        while (length < FRONT) {
            const { bytesRead } = await file.read(front, length, FRONT - length);
            if (bytesRead === 0) break;
            length += bytesRead;
        }
        return front.subarray(0, length);
    } finally {
        await file.close();
    }
};

/** The same at once. */
const frontOfFileSync = (path) => {
    refuseUnlessRegular(statSync(path), path);
    const file = openSync(path, AT_ONCE);
    try {
        refuseUnlessRegular(fstatSync(file), path);
        const front = new Uint8Array(FRONT);
        let length = 0;
        while (length < FRONT) {
            const count = readSync(file, front, length, FRONT - length, null);
            if (count === 0) break;
            length += count;
        }
        return front.subarray(0, length);
    } finally {
        closeSync(file);
    }
};

export const fileTypeFromFileSync = (path, options) => core.fileTypeAtOnce(frontOfFileSync(path), options);

export const fileTypeFromFile = async (path, options) => core.fileTypeFromBuffer(await frontOfFile(path), options);

export const namedFromFile = async (path) => core.named(path instanceof URL ? fileURLToPath(path) : path, await frontOfFile(path));

export const fileTypeFromStream = async (stream, options) => {
    if (!(stream instanceof Readable)) return core.fileTypeFromStream(stream, options);
    const pieces = stream.iterator({ destroyOnReturn: false });
    try {
        return (await core.readFront(() => pieces.next(), options)).fileType;
    } finally {
        await pieces.return();
    }
};

/** What was read, and then the rest. The stream is destroyed with the one that is made of it. */
async function* wholeOf(read, rest, stream) {
    try {
        yield* read;
        yield* rest;
    } finally {
        stream.destroy();
    }
}

export const fileTypeStream = async (stream, given) => {
    const options = core.optionsOf(given);
    if (!(stream instanceof Readable)) return core.fileTypeStream(stream, options);
    const rest = stream.iterator();
    try {
        const { fileType, pieces } = await core.readFront(() => rest.next(), options);
        const whole = Readable.from(wholeOf(pieces, rest, stream), { objectMode: false });
        whole.once("close", () => stream.destroy());
        return Object.assign(whole, { fileType });
    } catch (fault) {
        stream.destroy();
        throw fault;
    }
};
