/** The type of a file, from its first bytes. */
export interface FileTypeResult {
    /** The extension, without a dot. */
    readonly ext: string;
    readonly mime: string;
}

/** Bytes of any kind. */
export type Bytes = ArrayBufferView | ArrayBufferLike;

/** A detector of your own: what the first bytes, 8192 at most, are, or undefined. */
export type Detector = (front: Uint8Array) => FileTypeResult | undefined | Promise<FileTypeResult | undefined>;

/** What is asked. An option of another name throws a TypeError. */
export interface Options {
    /** Whether the wider answer is told, which knows the further types too. */
    readonly more?: boolean;
    /** They are asked in their order, before the library. */
    readonly detectors?: readonly Detector[];
}

/** The type by the first 8192 bytes, or undefined if they are of no known type. */
export function fileTypeFromBuffer(bytes: Bytes, options?: Options): Promise<FileTypeResult | undefined>;

/** The type of a Blob or File, of which 8192 bytes are read at most. */
export function fileTypeFromBlob(blob: Blob, options?: Options): Promise<FileTypeResult | undefined>;

/** The wider answer by the first 8192 bytes: that of fileTypeFromBuffer, or a further type that is more exact. */
export function getMore(bytes: Bytes): FileTypeResult | undefined;
/** @deprecated The older name of getMore. */
export function wider(bytes: Bytes): FileTypeResult | undefined;

/**
 * How a text is encoded by its first 8192 bytes, by its IANA name, and undefined if they are no text or of another
 * encoding. A character that is cut at the end makes no difference.
 */
export function encoding(bytes: Bytes): "us-ascii" | "utf-8" | "utf-16le" | "utf-16be" | undefined;

/** Whether no bytes that may follow can change the answer of fileTypeFromBuffer. */
export function isDecided(bytes: Bytes): boolean;

/** Whether no bytes that may follow can change the answer of getMore. It can be false although none can. */
export function isMoreDecided(bytes: Bytes): boolean;
/** @deprecated The older name of isMoreDecided. */
export function isWiderDecided(bytes: Bytes): boolean;

/** Whether some bytes that may follow make a type that fileTypeFromBuffer knows, with this extension, accept. */
export function mayBecome(bytes: Bytes, ext: string): boolean;

/** The same of the types that getMore knows. Of a further type it can be true although no bytes do. */
export function moreMayBecome(bytes: Bytes, ext: string): boolean;
/** @deprecated The older name of moreMayBecome. */
export function mayBecomeWider(bytes: Bytes, ext: string): boolean;

/** Bytes that decide an answer. */
export interface EvidenceRange {
    /** Where the first of them stands. */
    readonly place: number;
    /** How many they are. */
    readonly length: number;
    /** How far each other is behind the one before: 1 but for a search. */
    readonly step: number;
    /** The type of which they tell. It is undefined of the first byte, which rules out all types that begin with another. */
    readonly type: KnownType | undefined;
    /** Whether it accepts by these bytes: this is the answer, or the built-in one that it makes more exact. Otherwise they rule it out. */
    readonly accepts: boolean;
}

/** What decides an answer: bytes, and what is needed of their length. */
export interface Evidence {
    /** The answer. */
    readonly type: FileTypeResult | undefined;
    /** Which bytes. */
    readonly ranges: readonly EvidenceRange[];
    /** How many ranges are wanted. If there are fewer, they are not enough. */
    readonly wanted: number;
    /** The least length that is needed. */
    readonly least: number;
    /** Whether just the length that there is, of the first 8192 bytes, is needed. */
    readonly isExact: boolean;
}

/**
 * What decides the answer of fileTypeFromBuffer: all bytes that have these in the same places, and such a length, have it
 * too.
 */
export function evidence(bytes: Bytes): Evidence;

/** What decides the answer of getMore, in the same way. */
export function moreEvidence(bytes: Bytes): Evidence;
/** @deprecated The older name of moreEvidence. */
export function widerEvidence(bytes: Bytes): Evidence;

/** What is wrong with a text that describes no types, and where: the line and the column, both from 1, a column by bytes. */
export class TypesError extends SyntaxError {
    private constructor();
    readonly line: number;
    readonly column: number;
    readonly reason: string;
}

/** Types of your own, which a text describes, one a line, in the notation of docs/NOTATION.md. */
export class Types {
    /** Throws a TypesError if the text describes no types. */
    constructor(text: string | Bytes);

    /**
     * The first of these types that stands below the answer of fileTypeFromBuffer and accepts the first 8192 bytes, and the
     * answer of getMore if there is none.
     */
    get(bytes: Bytes): FileTypeResult | undefined;
    /** @deprecated The older name of get. */
    wider(bytes: Bytes): FileTypeResult | undefined;

    /** The number of the line, from 1, whose type that is, and undefined if it is that of getMore, or none. */
    line(bytes: Bytes): number | undefined;
}

/** What a name did beside the bytes of its file. */
export const Standing: {
    /** The bytes are of the type that the name has. */
    readonly AGREE: "agree";
    /** They may begin a file of the type that the name has, which is told. */
    readonly NAME_REFINES: "name refines";
    /** They are of a finer kind of the type that the name has. Theirs is told. */
    readonly BYTES_REFINE: "bytes refine";
    /** The name says nothing, and the bytes have a type. */
    readonly BYTES_ALONE: "bytes alone";
    /** No type accepts the bytes, and they may be of the type that the name has. */
    readonly NAME_ALONE: "name alone";
    /** The bytes are not of a type that the name has. */
    readonly CONTRADICTS: "contradicts";
    /** Neither says anything. */
    readonly NOTHING: "nothing";
};
export type Standing = (typeof Standing)[keyof typeof Standing];

/** A type that names tell. */
export interface NamedType {
    /** The extension, without a dot, and undefined if only names tell of the type. */
    readonly ext: string | undefined;
    readonly mime: string;
    /** Whether nobody else names it, so that it tells files apart and is not to be sent. */
    readonly isOwnName: boolean;
}

/** What a name and bytes tell. */
export interface Named {
    readonly standing: Standing;
    readonly type: NamedType | undefined;
    /** The type that the name has first, whatever the bytes are. */
    readonly typeOfName: NamedType | undefined;
    /** The answer of getMore, which the bytes have whatever the name is. */
    readonly typeOfBytes: FileTypeResult | undefined;
}

/**
 * What a file's name and its first 8192 bytes tell. The bytes win: a name only chooses among what they leave open. A name
 * may be bytes.
 */
export function named(name: string | Bytes, bytes: Bytes): Named;

/** What can be odd about a name. Whoever sees one with a control character or a mark of direction is misled. */
export type Oddity = "control" | "direction" | "end" | "two extensions";

/** What is odd about a name, which may be bytes. It changes nothing of what named tells. */
export function oddities(name: string | Bytes): Oddity[];

/**
 * The line that infer_label prints of a file's name and its first 8192 bytes, without its end. Nothing of a name moves a
 * cursor or is hidden.
 */
export function line(name: string | Bytes, bytes: Bytes): string;

/**
 * A MIME type, by the MIME Sniffing Standard. A code point of a text is one of the standard's, and each of bytes counts as the
 * code point with its number.
 */
export class MIMEType {
    /** Throws a SyntaxError if the text says none, has more than 256 parameters, or would take more than 4095 bytes. */
    constructor(text: string | Bytes);
    /** The MIME type that the text says, or null. */
    static parse(text: string | Bytes): MIMEType | null;
    /** The type and the subtype, as "text/html". */
    readonly essence: string;
    readonly type: string;
    readonly subtype: string;
    /** A copy of the parameters, in their order. Names are in lower case. */
    readonly parameters: Map<string, string>;
    /** The text, as the standard writes it. */
    toString(): string;
    isImage(): boolean;
    isAudioOrVideo(): boolean;
    isFont(): boolean;
    isZipBased(): boolean;
    isArchive(): boolean;
    isXML(): boolean;
    isHTML(): boolean;
    /** Whether a document of it may run scripts: XML, HTML and PDF. */
    isScriptable(): boolean;
    isJavaScript(options?: { readonly prohibitParameters?: boolean }): boolean;
    isJSON(): boolean;
    /** What a browser takes it for that supports it or not, as "application/json" of "text/json", or undefined. */
    minimize(isSupported?: boolean): string | undefined;
}

/**
 * The MIME type that the values of Content-Type say together, as Fetch extracts it, or null. If the last of them has no charset,
 * it has that of the first of the values in a row with its type and subtype. Several values are given as one, with ", " between
 * them.
 */
export function extractMIMEType(value: string | Bytes): MIMEType | null;

/** What bytes are loaded for. */
export const Context: {
    readonly PAGE: "page";
    readonly IMAGE: "image";
    readonly AUDIO_OR_VIDEO: "audio or video";
    readonly FONT: "font";
    readonly PLUGIN: "plugin";
    readonly STYLE: "style";
    readonly SCRIPT: "script";
    readonly TEXT_TRACK: "text track";
    readonly CACHE_MANIFEST: "cache manifest";
};
export type Context = (typeof Context)[keyof typeof Context];

/** What is known of a resource before its bytes are looked at. */
export interface Supplied {
    /** The MIME type that was told. */
    readonly contentType?: string | Bytes;
    /** Whether sniffing is forbidden, as isNosniff tells. */
    readonly nosniff?: boolean;
    /** Whether the header is one that old servers sent of every file, as isOldServer tells. */
    readonly oldServer?: boolean;
}

/**
 * The type that a browser computes of what is known and of the first 1445 bytes. It is undefined if nothing is told and
 * nothing is found, which is never so of a page.
 */
export function compute(bytes: Bytes, options?: Supplied & { readonly context?: Context }): string | undefined;

/** Whether no bytes that may follow change what compute says of a page. True is certain. */
export function isComputeDecided(bytes: Bytes, options?: Supplied): boolean;

/** Whether some bytes that may follow make a browser that was told no type run scripts. False is certain. */
export function mayBeScriptable(bytes: Bytes): boolean;

/** Whether the value of X-Content-Type-Options forbids to sniff. Several values are given as one, with ", " between them. */
export function isNosniff(value: string | Bytes): boolean;

/** Whether a response that forbids to sniff is blocked, by the value of Content-Type and what it is fetched for. */
export function isBlocked(value: string | Bytes, destination: "script" | "style" | "other"): boolean;

/** Whether the value of the last Content-Type is one that old servers sent of every file. */
export function isOldServer(value: string | Bytes): boolean;

/** The extensions that fileTypeFromBuffer knows. */
export const supportedExtensions: ReadonlySet<string>;

/** The MIME types that fileTypeFromBuffer knows. */
export const supportedMimeTypes: ReadonlySet<string>;

/** A type, with the name of its class, as "image". */
export interface KnownType extends FileTypeResult {
    readonly class: string;
}

/** The types that getMore knows, in the order in which they are asked: those of fileTypeFromBuffer and the further types. */
export const knownTypes: readonly KnownType[];

/** A short buffer of which the type with that number in knownTypes is the answer, or the wider answer, if there is one. */
export function sample(number: number): Uint8Array | undefined;

/** The version of the library. */
export const version: string;
