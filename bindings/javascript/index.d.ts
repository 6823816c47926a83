import type { Bytes, FileTypeResult, Options } from "./core.js";

export * from "./core.js";

/** Reads until the type is decided, and takes away what it reads. The stream is left open and not locked. */
export function fileTypeFromStream(stream: ReadableStream<Bytes>, options?: Options): Promise<FileTypeResult | undefined>;

/** Reads until the type is decided, and gives a stream of the whole, with the type in `fileType`. */
export function fileTypeStream<Piece extends Bytes>(stream: ReadableStream<Piece>, options?: Options): Promise<ReadableStream<Piece> & { readonly fileType?: FileTypeResult }>;
