/// <reference types="node" />
import type { PathLike } from "node:fs";
import type { Readable } from "node:stream";
import type { ReadableStream as NodeReadableStream } from "node:stream/web";
import type { Bytes, FileTypeResult, Named, Options } from "./core.js";

export * from "./core.js";

/** The type of a file, of which 8192 bytes are read at most. */
export function fileTypeFromFile(path: PathLike, options?: Options): Promise<FileTypeResult | undefined>;

/** The same at once. Options with detectors throw a TypeError. */
export function fileTypeFromFileSync(path: PathLike, options?: Options): FileTypeResult | undefined;

/** What the path, as a name, and the first 8192 bytes of that file tell. */
export function namedFromFile(path: PathLike): Promise<Named>;

/** Reads until the type is decided, and takes away what it reads. The stream is left open and not locked. */
export function fileTypeFromStream(stream: Readable | NodeReadableStream<Bytes>, options?: Options): Promise<FileTypeResult | undefined>;

/** Reads until the type is decided, and gives a stream of the whole, with the type in `fileType`. */
export function fileTypeStream<Stream extends Readable | NodeReadableStream<Bytes>>(stream: Stream, options?: Options): Promise<Stream & { readonly fileType?: FileTypeResult }>;
