// What callers hand over as bytes. The getters are those of the language, so that no subclass can state another length.

const getterOf = (prototype, name) => {
    const { get } = Object.getOwnPropertyDescriptor(prototype, name);
    return (object) => get.call(object);
};

const arrays = Object.getPrototypeOf(Uint8Array.prototype);
const nameOfArray = getterOf(arrays, Symbol.toStringTag);
const ofArray = { buffer: getterOf(arrays, "buffer"), offset: getterOf(arrays, "byteOffset"), length: getterOf(arrays, "byteLength") };
const views = DataView.prototype;
const ofView = { buffer: getterOf(views, "buffer"), offset: getterOf(views, "byteOffset"), length: getterOf(views, "byteLength") };
// Browsers have shared memory only in pages that are isolated.
const buffers = [ArrayBuffer, globalThis.SharedArrayBuffer].filter(Boolean).map((kind) => getterOf(kind.prototype, "byteLength"));

const lengthOfBuffer = (object) => {
    for (const lengthOf of buffers) {
        try {
            return lengthOf(object);
        } catch {
            // It is a buffer of another kind, or none.
        }
    }
    throw new TypeError("hand over bytes: a Uint8Array or another view, an ArrayBuffer or a SharedArrayBuffer");
};

/** The first bytes of what was handed over, `most` at most, where they stand. Throws a TypeError if it holds no bytes. */
export const frontOf = (object, most) => {
    if (!ArrayBuffer.isView(object)) return new Uint8Array(object, 0, Math.min(lengthOfBuffer(object), most));
    const { buffer, offset, length } = nameOfArray(object) === undefined ? ofView : ofArray;
    return new Uint8Array(buffer(object), offset(object), Math.min(length(object), most));
};

/** Copies the first bytes of what was handed over to the beginning of `room`, `most` at most, and tells how many they are. */
export const copyFront = (object, most, room) => {
    // To make a view takes as long as to copy, so there is none of what is copied whole.
    const isWhole = nameOfArray(object) === "Uint8Array" && ofArray.length(object) <= most;
    const front = isWhole ? object : frontOf(object, most);
    room.set(front);
    return isWhole ? ofArray.length(object) : front.length;
};
