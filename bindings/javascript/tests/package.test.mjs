// The package as npm packs it, its faults before the first answer, its declarations, and the programs of its page.
import assert from "node:assert/strict";
import { spawnSync } from "node:child_process";
import { cpSync, existsSync, mkdirSync, mkdtempSync, readFileSync, readdirSync, rmSync, writeFileSync } from "node:fs";
import { tmpdir } from "node:os";
import { join } from "node:path";
import { after, test } from "node:test";
import { fileURLToPath } from "node:url";

const here = fileURLToPath(new URL("..", import.meta.url));
const work = mkdtempSync(join(tmpdir(), "infer-test-"));
after(() => rmSync(work, { recursive: true }));

const isThere = (program) => spawnSync(program, ["--version"]).status === 0;
const run = (folder, program, ...words) =>
    spawnSync(program, words, { cwd: folder, encoding: "utf8", timeout: 120_000, env: { ...process.env, HOME: work, npm_config_cache: join(work, "cache"), npm_config_offline: "true", npm_config_update_notifier: "false", NODE_OPTIONS: "" } });
const node = (folder, ...words) => run(folder, process.execPath, ...process.execArgv.filter((it) => it.includes("wasm")), ...words);
const folderFor = (name) => {
    const folder = join(work, name);
    mkdirSync(folder);
    return folder;
};

/** The first program of the page, what the page says that it prints, and the second. */
const page = readFileSync(join(here, "README.md"), "utf8");
const [program, printed, checking, storing] = [...page.matchAll(/```(?:js|text)\n(.*?)```/gs)].map((found) => found[1]);

/** An empty folder in which the package is, by its files alone. */
const folderWith = (name, change = () => {}) => {
    const folder = folderFor(name);
    const to = join(folder, "node_modules/hoarvelt-infer");
    mkdirSync(to, { recursive: true });
    for (const file of readdirSync(here)) if (/\.(js|wasm|def)$|^package\.json$|\.d\.ts$/.test(file)) cpSync(join(here, file), join(to, file));
    change(to);
    return folder;
};

test("npm packs all that is needed, and an empty folder takes it", { skip: isThere("npm") ? false : "no npm that runs" }, () => {
    const packed = run(here, "npm", "pack", "--pack-destination", work);
    assert.equal(packed.status, 0, packed.stderr);
    const archive = join(work, packed.stdout.trim().split("\n").at(-1));
    const folder = folderFor("empty");
    const installed = run(folder, "npm", "install", "--no-audit", "--no-fund", archive);
    assert.equal(installed.status, 0, installed.stderr);
    const kept = readdirSync(join(folder, "node_modules/hoarvelt-infer"));
    for (const name of ["infer.wasm", "aliases.def", "LICENSE", "README.md", "index.js", "index.d.ts"]) assert.ok(kept.includes(name), name);
    assert.ok(!kept.includes("tests") && !kept.includes("fill"));
    // npm asks a network for every package that this one names.
    const described = JSON.parse(readFileSync(join(folder, "node_modules/hoarvelt-infer/package.json"), "utf8"));
    for (const name of ["dependencies", "peerDependencies", "optionalDependencies"]) assert.equal(described[name], undefined, name);
    for (const name of ["author", "homepage", "license", "keywords"]) assert.ok(described[name], name);
    writeFileSync(join(folder, "program.mjs"), program);
    writeFileSync(join(folder, "photo.jpg"), Buffer.from("ffd8ffe0", "hex"));
    const ended = node(folder, "program.mjs");
    assert.equal(ended.stdout, printed, ended.stderr);
});

test("the page names each call, but for the older names", async () => {
    const names = [...Object.keys(await import("../node.js")), ...Object.keys(await import("../aliases-node.js"))];
    const missing = names.filter((it) => !/wider/i.test(it) && !new RegExp(`\\b${it}\\b`).test(page));
    assert.deepEqual([missing, page.match(/\bwider\(|`wider`/)], [[], null]);
});

test("the page's program stores an image, and nothing else", () => {
    const folder = folderWith("storing");
    writeFileSync(join(folder, "store.mjs"), storing);
    const source = `import { Readable } from "node:stream"; import { existsSync, readFileSync } from "node:fs"; import { store } from "./store.mjs";
        await store(Readable.from([Buffer.from("GIF8"), Buffer.from("9a rest")]), "kept");
        const fault = await store(Readable.from([Buffer.from("%PDF-1.4")]), "refused").catch((it) => it.message);
        console.log(readFileSync("kept", "utf8"), fault, existsSync("refused"));`;
    const ended = node(folder, "--input-type=module", "-e", source);
    assert.equal(ended.stdout, "GIF89a rest not an image false\n", ended.stderr);
});

test("the page's check refuses a name that lies", () => {
    const folder = folderWith("checking");
    writeFileSync(join(folder, "check.mjs"), checking);
    const source = `import { check } from "./check.mjs";
        const photo = new Uint8Array([255, 216, 255]);
        check("a.jpg", photo);
        for (const [name, bytes] of [["a.php.jpg", photo], ["a.jpg", Buffer.from("GIF89a")], ["a.gif", Buffer.from("GIF89a")]]) {
            try { check(name, bytes); } catch (fault) { console.log(fault.message); }
        }`;
    const ended = node(folder, "--input-type=module", "-e", source);
    assert.equal(ended.stdout, "the name has two extensions\ncontradicts: no JPEG image\nagree: no JPEG image\n", ended.stderr);
});

test("what a bundler copies is exported", () => {
    const folder = folderWith("exported");
    const source = `import { createRequire } from "node:module"; const require = createRequire(process.cwd() + "/x.js");
        console.log(import.meta.resolve("hoarvelt-infer/infer.wasm").endsWith("/hoarvelt-infer/infer.wasm"), require("hoarvelt-infer/package.json").name);`;
    const ended = node(folder, "--input-type=module", "-e", source);
    assert.equal(ended.stdout, "true hoarvelt-infer\n", ended.stderr);
});

test("a bundle by esbuild starts beside infer.wasm, and says what is missing without it", { skip: isThere("esbuild") ? false : "no esbuild that runs" }, () => {
    const folder = folderWith("bundled");
    writeFileSync(join(folder, "asks.mjs"), 'import { fileTypeFromBuffer } from "hoarvelt-infer"; console.log((await fileTypeFromBuffer(new Uint8Array([255, 216, 255]))).mime);');
    const ended = run(folder, "esbuild", "asks.mjs", "--bundle", "--format=esm", "--platform=node", "--outfile=dist/asks.mjs");
    assert.equal(ended.status, 0, ended.stderr);
    assert.match(node(folder, "dist/asks.mjs").stderr, /does not find infer\.wasm\. Copy it from the package's folder/);
    cpSync(join(folder, "node_modules/hoarvelt-infer/infer.wasm"), join(folder, "dist/infer.wasm"));
    assert.equal(node(folder, "dist/asks.mjs").stdout, "image/jpeg\n");
});

const [major, minor] = process.versions.node.split(".").map(Number);
const withoutRequire = major > 22 || (major === 22 && minor >= 12) || (major === 20 && minor >= 19) ? false : `no node that requires ES modules (it is ${process.version})`;

test("the package is required as it is imported", { skip: withoutRequire }, () => {
    const folder = folderWith("required");
    const source = `const { fileTypeFromBuffer, getMore } = require("hoarvelt-infer");
        const { extensions } = require("hoarvelt-infer/aliases");
        fileTypeFromBuffer(Buffer.from("GIF89a")).then((it) => console.log(it.ext, getMore(Buffer.from("<svg></svg>")).ext, extensions.get("jpeg")));`;
    writeFileSync(join(folder, "asks.cjs"), source);
    const ended = node(folder, "asks.cjs");
    assert.equal(ended.stdout, "gif svg jpg\n", ended.stderr);
});

test("a module that is not there is named in one sentence", () => {
    const folder = folderWith("without-module", (to) => rmSync(join(to, "infer.wasm")));
    const ended = node(folder, "--input-type=module", "-e", 'import("hoarvelt-infer").catch((fault) => console.log(fault.message, fault.cause.code))');
    assert.match(ended.stdout, /^hoarvelt-infer does not find infer\.wasm\. Copy it from the package's folder .* ENOENT\n$/);
});

test("an engine without 64-bit memories is told in one sentence", () => {
    const folder = folderWith("without-memories");
    // Later versions of Node have them whatever is asked for, so there the question is answered for them.
    const source = `import { readFileSync } from "node:fs";
        if (WebAssembly.validate(readFileSync("node_modules/hoarvelt-infer/infer.wasm"))) WebAssembly.validate = () => false;
        import("hoarvelt-infer").catch((fault) => console.log(fault.message));`;
    assert.match(run(folder, process.execPath, "--input-type=module", "-e", source).stdout, /^hoarvelt-infer needs 64-bit WebAssembly memories, .*\n$/);
});

test("the file for browsers has every name but that of files, and reads by fetch", () => {
    const folder = folderWith("browser");
    const source = `import { readFileSync } from "node:fs"; import { fileURLToPath } from "node:url";
        globalThis.fetch = async (url) => new Response(readFileSync(fileURLToPath(url)));
        const [forBrowsers, forNode] = [await import("./node_modules/hoarvelt-infer/index.js"), await import("hoarvelt-infer")];
        const missing = Object.keys(forNode).filter((name) => !(name in forBrowsers));
        console.log(missing.join(), (await forBrowsers.fileTypeFromBuffer(new Uint8Array([0x47, 0x49, 0x46]))).ext);
        const { extensions } = await import("./node_modules/hoarvelt-infer/aliases.js");
        console.log(extensions.get("jpeg"));`;
    const ended = node(folder, "--input-type=module", "-e", source);
    assert.equal(ended.stdout, "fileTypeFromFile,fileTypeFromFileSync,namedFromFile gif\njpg\n", ended.stderr);
});

const TYPED = `import * as types from "hoarvelt-infer";
import { extensions } from "hoarvelt-infer/aliases";
const found: types.FileTypeResult | undefined = await types.fileTypeFromBuffer(new Uint8Array(4));
const names: string[] = [found?.ext ?? "", found?.mime ?? "", extensions.get("jpeg") ?? "", ...types.supportedExtensions, ...types.supportedMimeTypes, ...types.knownTypes.map((type) => type.class)];
const whole = await types.fileTypeStream(new Blob([]).stream());
const more: types.FileTypeResult | undefined = whole.fileType ?? types.getMore(new SharedArrayBuffer(4)) ?? (await types.fileTypeFromBlob(new Blob([])));
const own: types.FileTypeResult | undefined = new types.Types("").get(new Uint8Array(4)) ?? new types.Types(new ArrayBuffer(4)).get(new ArrayBuffer(4));
const place = (fault: types.TypesError): string => fault.reason + (fault.line + fault.column);
const options: types.Options = { more: true, detectors: [(front) => (front.length > 4 ? found : undefined), async () => undefined] };
const asked = [await types.fileTypeFromBuffer(new Uint8Array(4), options), await types.fileTypeFromBlob(new Blob([]), options), (await types.fileTypeStream(new Blob([]).stream(), options)).fileType];
const told: [Uint8Array | undefined, string, boolean, number | undefined] = [types.sample(4), types.version, types.mayBecome(new Uint8Array(4), "jpg") || types.moreMayBecome(new Uint8Array(4), "jpg"), new types.Types("").line(new Uint8Array(4))];
const named: types.Named = types.named("photo.jpg", new Uint8Array(4)) ?? types.named(new Uint8Array(4), new Uint8Array(4));
const standing: types.Standing = named.standing === types.Standing.AGREE ? "agree" : types.Standing.NOTHING;
const odd: types.Oddity[] = types.oddities("photo.jpg");
const older = [types.wider(new Uint8Array(4)), types.isWiderDecided(new Uint8Array(4))];
const ofName: [string | undefined, boolean | undefined] = [named.typeOfName?.ext ?? named.typeOfBytes?.ext, named.type?.isOwnName];
const isDecided: boolean = types.isDecided(new DataView(new ArrayBuffer(4))) && types.isMoreDecided(new Uint8Array(4));
// @ts-expect-error
await types.fileTypeFromBuffer("text");
// @ts-expect-error
found!.ext = "x";
export { names, whole, more, own, place, isDecided, asked, told, standing, ofName, odd, older };
`;

const TYPED_FOR_NODE = `import { createReadStream } from "node:fs";
import { Readable } from "node:stream";
import { ReadableStream } from "node:stream/web";
import * as types from "hoarvelt-infer";
import { extensions } from "hoarvelt-infer/aliases";
const file: types.FileTypeResult | undefined = await types.fileTypeFromFile(new URL("file:///photo.jpg"));
const atOnce: types.FileTypeResult | undefined = types.fileTypeFromFileSync("photo.jpg", { more: true });
const name: string = atOnce?.ext ?? file?.ext ?? extensions.get("jpeg") ?? "";
const whole = await types.fileTypeStream(createReadStream("photo.jpg"));
whole.pipe(process.stdout);
const ofWeb = await types.fileTypeStream(new ReadableStream<Uint8Array>());
const found: types.FileTypeResult | undefined = whole.fileType ?? ofWeb.fileType ?? (await types.fileTypeFromStream(Readable.from([]))) ?? types.getMore(Buffer.alloc(4));
const own: types.FileTypeResult | undefined = new types.Types("").get(new Uint8Array(4)) ?? (await types.fileTypeFromBlob(new Blob([])));
// @ts-expect-error
await types.fileTypeFromFile(4);
// @ts-expect-error
await types.fileTypeFromStream("photo.jpg");
export { name, found, own };
`;

/** Compiles a program with the declarations of the package. */
const compile = (name, program, options) => {
    const folder = folderWith(name);
    writeFileSync(join(folder, "program.mts"), program);
    const common = { strict: true, noEmit: true, skipDefaultLibCheck: true, target: "es2022", module: "node16", moduleResolution: "node16" };
    writeFileSync(join(folder, "tsconfig.json"), JSON.stringify({ compilerOptions: { ...common, ...options }, files: ["program.mts"] }));
    const ended = run(folder, "tsc", "-p", ".");
    assert.equal(ended.status, 0, ended.stdout);
};
const withoutTsc = isThere("tsc") ? false : "no tsc that runs";
/** Where Debian's package node-types-node has the declarations of Node. */
const NODE_TYPES = "/usr/share/nodejs/@types";
const withoutNodeTypes = withoutTsc || (existsSync(join(NODE_TYPES, "node")) ? false : "no package node-types-node");

test("the declarations fit a program for browsers, by tsc", { skip: withoutTsc }, () => {
    // Where no condition is that of Node.
    const paths = { "hoarvelt-infer": ["./node_modules/hoarvelt-infer/index.d.ts"], "hoarvelt-infer/aliases": ["./node_modules/hoarvelt-infer/aliases.d.ts"] };
    compile("typed", TYPED, { lib: ["es2022", "dom", "dom.iterable"], types: [], baseUrl: ".", paths });
});

test("the declarations fit a program for Node, by tsc", { skip: withoutNodeTypes }, () => {
    compile("typed-for-node", TYPED_FOR_NODE, { lib: ["es2022"], types: ["node"], typeRoots: [NODE_TYPES] });
    // The older way to look for a package asks package.json for "types", and knows no exports.
    const asks = 'import { fileTypeFromFile, named } from "hoarvelt-infer"; export const found = [fileTypeFromFile("a"), named("a", new Uint8Array(4))];';
    compile("typed-by-node", asks, { lib: ["es2022"], types: ["node"], typeRoots: [NODE_TYPES], module: "commonjs", moduleResolution: "node" });
});
