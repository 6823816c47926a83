// Other names of the types, from the data file aliases.def. Each map leads from an alias to the extension of a type.

export const extensions = new Map();
export const mimeTypes = new Map();
export const browserTypes = new Map();
export const builtOn = new Map();

const maps = { EXTENSION: extensions, MIME_TYPE: mimeTypes, BROWSER: browserTypes, BUILT_ON: builtOn };

export const fillFrom = (text) => {
    for (const [, kind, alias, target] of text.matchAll(/^([A-Z_]+)\("([^"]+)", "([^"]+)"\)$/gm)) maps[kind].set(alias, target);
};
