// Other names of the types, as browsers read them.
import { fillFrom } from "./aliases-core.js";

const url = new URL("aliases.def", import.meta.url);
const response = await fetch(url);
if (!response.ok) throw new Error(`hoarvelt-infer has no aliases: ${url} answers ${response.status}`);
fillFrom(await response.text());

export { browserTypes, builtOn, extensions, mimeTypes } from "./aliases-core.js";
