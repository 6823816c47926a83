// The package as browsers take it.
import { connect } from "./core.js";

const url = new URL("infer.wasm", import.meta.url);
await connect(async () => {
    const response = await fetch(url);
    if (!response.ok) throw new Error(`${url} answers ${response.status}`);
    return response.arrayBuffer();
});

export {
    Context,
    MIMEType,
    Standing,
    Types,
    TypesError,
    compute,
    encoding,
    evidence,
    extractMIMEType,
    fileTypeFromBlob,
    fileTypeFromBuffer,
    fileTypeFromStream,
    fileTypeStream,
    getMore,
    isBlocked,
    isComputeDecided,
    isDecided,
    isMoreDecided,
    isNosniff,
    isOldServer,
    isWiderDecided,
    knownTypes,
    line,
    mayBeScriptable,
    mayBecome,
    mayBecomeWider,
    moreEvidence,
    moreMayBecome,
    named,
    oddities,
    sample,
    supportedExtensions,
    supportedMimeTypes,
    version,
    wider,
    widerEvidence,
} from "./core.js";
