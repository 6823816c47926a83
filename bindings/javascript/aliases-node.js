// Other names of the types, as Node reads them.
import { readFileSync } from "node:fs";
import { fillFrom } from "./aliases-core.js";

fillFrom(readFileSync(new URL("aliases.def", import.meta.url), "utf8"));

export { browserTypes, builtOn, extensions, mimeTypes } from "./aliases-core.js";
