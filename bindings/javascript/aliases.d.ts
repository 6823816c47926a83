/** Other extensions of a type, as "jpeg". Each map leads from an alias to the extension of a type. */
export const extensions: ReadonlyMap<string, string>;
/** Other MIME types of a type, as "image/jpg". */
export const mimeTypes: ReadonlyMap<string, string>;
/** The MIME types that browsers want, as "font/woff2". */
export const browserTypes: ReadonlyMap<string, string>;
/** Extensions of formats whose bytes are told as those of a wider one, as "svg", whose bytes are told as "xml". */
export const builtOn: ReadonlyMap<string, string>;
