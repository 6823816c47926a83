// Tells the types of files that are dropped on the page or chosen. Files are read here, and sent nowhere.

const FRONT = 8192;
const BYTES_IN_A_LINE = 16;
/** So many lines of an opened file are shown, and beyond them those of a range that is shown byte for byte. */
const FIRST_LINES = 4;
/** A longer range is told by its length. */
const LONGEST_SHOWN = 16;
/** What a type of a class is called. */
const WORDS = { app: "file", archive: "archive", audio: "audio file", book: "book", custom: "file", doc: "document", font: "font", image: "image", text: "text", video: "video" };
const ROWS_AT_ONCE = 500;
const FILES_AT_ONCE = 32;
const BETWEEN_PAINTS = 200;
/** So many milliseconds the page works before it lets the browser draw and answer. */
const WORK_AT_ONCE = 20;
/** Of a name that is too long for its line so many last characters stay. */
const END_OF_A_NAME = 12;

const byId = (id) => document.getElementById(id);
const counted = (count, word) => `${count.toLocaleString("en")} ${word}${count === 1 ? "" : "s"}`;

/** An element with a class and what stands in it. */
const element = (name, className, ...inside) => {
    const it = document.createElement(name);
    if (className) it.className = className;
    it.append(...inside);
    return it;
};

const say = (text, isFault = false) => {
    byId("status").replaceChildren(...[text].flat());
    byId("status").classList.toggle("fault", isFault);
};

/** What is not seen, but for a plain blank, or has no form of its own; and what would look like one that is written out. */
const UNSEEN = /[\p{C}\p{Default_Ignorable_Code_Point}\u2800]|[\p{Z}--[ ]]|\\(?=u\{)/gv;

/** A name with what is not seen written out, so that none can be shown in another order than it has, or as another one. */
const visible = (name) => name.replace(UNSEEN, (it) => `\\u{${it.codePointAt(0).toString(16)}}`);

let infer;

/** Lets the browser draw and answer the keyboard. */
const rest = () => new Promise((resolve) => setTimeout(resolve));

/** Rests once the page has worked for a while since the last rest. */
let rested = 0;
const restIfLong = async () => {
    if (performance.now() - rested < WORK_AT_ONCE) return;
    await rest();
    rested = performance.now();
};

/** After how many first bytes nothing that follows can change the wider answer; undefined if not even after all of them. */
const decidedAfter = (front) => {
    if (!infer.isMoreDecided(front)) return undefined;
    let [low, high] = [0, front.length];
    while (low < high) {
        const middle = (low + high) >> 1;
        if (infer.isMoreDecided(front.subarray(0, middle))) high = middle;
        else low = middle + 1;
    }
    return low;
};

const same = (one, other) => one?.ext === other?.ext && one?.mime === other?.mime;

/** A type in a word. */
const wordOf = ({ ext, mime }) => ext ?? mime;

/** What the name did, as a class and a few words. */
const saidOf = ({ standing, type, typeOfName }) => {
    const { AGREE, NAME_REFINES, BYTES_REFINE, NAME_ALONE, CONTRADICTS } = infer.Standing;
    if (standing === AGREE) return ["agrees", "agrees"];
    if (standing === NAME_REFINES) return ["agrees", `refines to ${wordOf(type)}`];
    if (standing === BYTES_REFINE) return ["agrees", `is wider: ${wordOf(typeOfName)}`];
    if (standing === NAME_ALONE) return ["none", `alone says ${wordOf(type)}`];
    if (standing === CONTRADICTS) return ["differs", `contradicts: ${wordOf(typeOfName)}`];
    return ["none", "says nothing"];
};

const frontOf = async (file) => new Uint8Array(await file.slice(0, FRONT).arrayBuffer());

/** The file, and its first bytes, or why there are none. */
const read = async ({ name, open }) => {
    try {
        const file = await open();
        return { name, file, size: file.size, front: await frontOf(file) };
    } catch (fault) {
        return { name, fault: fault.message };
    }
};

/** All that a row of the table says of a file. Its bytes are not kept: a folder can have very many files. */
const judge = async ({ name, file, size, front, fault }) => {
    if (fault !== undefined) return { name, fault };
    const [type, wider] = [await infer.fileTypeFromBuffer(front), infer.getMore(front)];
    const told = infer.named(name, front);
    const [kind, words] = saidOf(told);
    const { standing, typeOfName } = told;
    return { name, file, size, type, wider, encoding: infer.encoding(front), after: decidedAfter(front), standing, typeOfName, kind, words };
};

const afterText = ({ after, size }) => {
    if (after !== undefined) return counted(after, "byte");
    return size <= FRONT ? `the end, ${counted(size, "byte")}` : `not by ${counted(FRONT, "byte")}`;
};

const isShown = ({ length, step }) => step === 1 && length <= LONGEST_SHOWN;
const hexOf = (byte) => byte.toString(16).padStart(2, "0").toUpperCase();

/** A range in words: "89 50 4E 47 at 0", "22 bytes at 0" of a longer one, or "256 bytes at 3, one in 4" of a search. */
const rangeText = (front, range) => {
    const { place, length, step } = range;
    const bytes = isShown(range) ? [...front.subarray(place, place + length)].map(hexOf).join(" ") : counted(length, "byte");
    return `${bytes} at ${place.toLocaleString("en")}${step > 1 ? `, one in ${step}` : ""}`;
};

/** The lines of a dump: the first, and those with a byte of a range that is shown. */
const linesOf = (front, ranges) => {
    const last = Math.min(FIRST_LINES, Math.ceil(front.length / BYTES_IN_A_LINE));
    const places = ranges.filter(isShown).flatMap(({ place, length, step }) => [...Array(length).keys()].map((at) => place + at * step));
    const shown = new Set([...Array(last).keys(), ...places.map((place) => Math.floor(place / BYTES_IN_A_LINE))]);
    return [...shown].sort((one, other) => one - other);
};

/** How a byte is marked: as one by which the row of the answer accepts, as one that rules another out, or not at all. */
const markOf = (ranges, at) => {
    const around = ranges.filter(({ place, length, step }) => place <= at && at < place + length * step && (at - place) % step === 0);
    if (around.some(({ accepts }) => accepts)) return "accepts";
    return around.length > 0 ? "rules-out" : undefined;
};

/** Bytes in hexadecimal and as characters, each with a colour if it decides. */
const dumpOf = (front, ranges) => {
    const dump = element("pre", "dump");
    dump.tabIndex = 0;
    let before = -1;
    for (const line of linesOf(front, ranges)) {
        const from = line * BYTES_IN_A_LINE;
        const bytes = [...front.subarray(from, from + BYTES_IN_A_LINE)];
        const marks = bytes.map((_, at) => markOf(ranges, from + at));
        const shownAs = (write) => bytes.map((byte, at) => (marks[at] ? element("mark", marks[at], write(byte)) : write(byte)));
        const digits = shownAs(hexOf).flatMap((it) => [it, " "]);
        const text = element("span", "text", ...shownAs((byte) => (byte > 0x20 && byte < 0x7f ? String.fromCharCode(byte) : "·")));
        if (line !== before + 1) dump.append(element("span", "place", "     ⋮\n"));
        dump.append(element("span", "place", `${from}`.padStart(6), "  "), ...digits, "   ".repeat(BYTES_IN_A_LINE - bytes.length), " ", text, "\n");
        before = line;
    }
    return dump;
};

/** What a range tells: that the row of the answer accepts, or that another one does not. */
const headOf = ({ type, accepts }) => {
    if (accepts) return "Decided by";
    return type ? `No ${type.ext} ${WORDS[type.class]}` : "Nothing that begins otherwise";
};

/** The bytes that decide, in words: those of the answer first. */
const reasonsOf = (front, { ranges, wanted, least, isExact }) => {
    // The first byte is told where no type's range has it.
    const ofTypes = ranges.filter(({ type }) => type);
    const shown = ofTypes.some(({ place }) => place === 0) ? ofTypes : ranges;
    const sorted = [...shown.filter(({ accepts }) => accepts), ...shown.filter(({ accepts }) => !accepts)];
    const reasons = sorted.map((range) => [headOf(range), rangeText(front, range)]);
    if (isExact) reasons.push(["Of its length", `just ${counted(front.length, "byte")}`]);
    else if (least > Math.max(0, ...ranges.map(({ place, length, step }) => place + (length - 1) * step + 1))) reasons.push(["Of its length", `at least ${counted(least, "byte")}`]);
    if (wanted > ranges.length) reasons.push(["And", "more than there is room for"]);
    return reasons;
};

/** What an opened file shows below its row. */
const detailsOf = async ({ file, size, type, wider }) => {
    const front = await frontOf(file);
    const evidence = infer.moreEvidence(front);
    const facts = [["Type", wider?.mime ?? "unknown"]];
    if (type && !same(type, wider)) facts.push(["A kind of", `${type.ext}, ${type.mime}`]);
    facts.push(["Size", counted(size, "byte")], ...reasonsOf(front, evidence));
    return [element("dl", "", ...facts.map(([term, text]) => element("div", "", element("dt", "", term), element("dd", "", text)))), dumpOf(front, evidence.ranges)];
};

const cellOf = (label, className, ...inside) => {
    const cell = element("td", className, ...inside);
    cell.dataset.label = label;
    // What there is no room for is read by a pointer.
    cell.title = cell.textContent;
    cell.role = "cell";
    return cell;
};

/** A name whose end stays in sight, and which opens and closes what stands below its row. */
const openerOf = (name) => {
    const text = visible(name);
    const letters = [...text];
    const opener = element("button", "opener", element("span", "", letters.slice(0, -END_OF_A_NAME).join("")), element("span", "", letters.slice(-END_OF_A_NAME).join("")));
    Object.assign(opener, { type: "button", title: text, ariaExpanded: "false" });
    return opener;
};

const toggle = async (row, result) => {
    const opener = row.querySelector(".opener");
    if (opener.ariaExpanded === "true") {
        opener.ariaExpanded = "false";
        row.nextElementSibling.remove();
        return;
    }
    opener.ariaExpanded = "true";
    const cell = element("td", "");
    cell.colSpan = 5;
    cell.role = "cell";
    const opened = element("tr", "opened", cell);
    opened.role = "row";
    row.after(opened);
    try {
        cell.replaceChildren(...(await detailsOf(result)));
    } catch (fault) {
        cell.replaceChildren(`It could not be read again: ${fault.message}`);
    }
};

const rowOf = (result) => {
    const name = element("th", "", result.fault === undefined ? openerOf(result.name) : visible(result.name));
    Object.assign(name, { scope: "row", role: "rowheader" });
    const row = element("tr", "file", name);
    row.role = "row";
    if (result.fault !== undefined) {
        const cell = cellOf("", "differs", `could not be read: ${result.fault}`);
        cell.colSpan = 4;
        row.append(cell);
        return row;
    }
    const type = result.wider ? [result.wider.ext, " ", element("span", "note", result.wider.mime)] : [nameOfType(result)];
    const [encoding, after] = [result.encoding ?? "none", afterText(result)];
    row.append(cellOf("Type", "", ...type), cellOf("Encoding", "", encoding), cellOf("The name", result.kind, result.words), cellOf("Decided after", "", after));
    row.addEventListener("click", () => toggle(row, result));
    return row;
};

const results = [];
const counts = new Map();
const differs = (result) => result.kind === "differs" || result.fault !== undefined;
/** As infer_label tells it. */
const nameOfType = ({ wider, size, fault }) => (fault === undefined ? (wider?.ext ?? (size === 0 ? "empty" : "unknown")) : "not read");

/** What is listed: by which words and in which order. Without a key, those that are contradicted come first. */
const list = { onlyDiffering: false, words: "", key: "", isDown: false, most: ROWS_AT_ONCE };

/** By what a column is sorted. */
const KEYS = {
    name: ({ name }) => name,
    type: nameOfType,
    encoding: ({ encoding }) => encoding ?? "",
    standing: (result) => (differs(result) ? ` ${result.words}` : (result.words ?? "")),
    after: ({ after, size }) => after ?? FRONT + (size ?? 0),
};

const compare = (one, other) => (one < other ? -1 : one > other ? 1 : 0);

const listed = () => {
    const words = list.words.toLowerCase();
    const has = (result) => !words || `${visible(result.name)} ${nameOfType(result)} ${result.wider?.mime ?? ""}`.toLowerCase().includes(words);
    const kept = results.filter((result) => (!list.onlyDiffering || differs(result)) && has(result));
    if (!list.key) return [...kept.filter(differs), ...kept.filter((result) => !differs(result))];
    const key = KEYS[list.key];
    const sign = list.isDown ? -1 : 1;
    return kept.sort((one, other) => sign * compare(key(one), key(other)));
};

/** The counts of all types, the most frequent first. */
const paintTypes = () => {
    const sorted = [...counts].sort(([, one], [, other]) => other - one);
    byId("bars").replaceChildren(...sorted.map(([name, count]) => element("li", "", element("strong", "", count.toLocaleString("en")), name)));
};

const paintRows = () => {
    const all = listed();
    const shown = all.slice(0, list.most);
    // A row stays as it is, with what is opened below it.
    const below = shown.flatMap((result) => {
        result.row ??= rowOf(result);
        const next = result.row.nextElementSibling;
        return next?.className === "opened" ? [result.row, next] : [result.row];
    });
    // Rows that are in their place are not touched: to lay hundreds out takes longer than to look at their files.
    const rows = byId("rows");
    let kept = 0;
    while (kept < below.length && rows.children[kept] === below[kept]) kept += 1;
    while (rows.children.length > kept) rows.lastChild.remove();
    rows.append(...below.slice(kept));
    const left = all.length - shown.length;
    byId("more").hidden = left === 0;
    byId("more").textContent = `Show ${Math.min(left, ROWS_AT_ONCE).toLocaleString("en")} more of ${counted(left, "file")}`;
    byId("none").hidden = all.length > 0;
};

const paint = () => {
    byId("results").hidden = results.length === 0;
    paintTypes();
    paintRows();
    for (const [id, count, isHere] of [["all", results.length, !list.onlyDiffering], ["differ", results.filter(differs).length, list.onlyDiffering]]) {
        byId(id).lastChild.textContent = count.toLocaleString("en");
        byId(id).ariaCurrent = isHere ? "true" : null;
    }
    for (const button of document.querySelectorAll("thead button")) {
        const isKey = button.dataset.key === list.key;
        button.parentElement.ariaSort = isKey ? (list.isDown ? "descending" : "ascending") : null;
    }
};

const keep = (result) => {
    results.push(result);
    counts.set(nameOfType(result), (counts.get(nameOfType(result)) ?? 0) + 1);
};

/** A link to the files whose name the bytes contradict, in what the page says. */
const sayResults = () => {
    const count = results.filter((it) => it.kind === "differs").length;
    const words = `${count === 0 ? "none" : count.toLocaleString("en")} of them ${count === 1 ? "has" : "have"} a name that the bytes contradict`;
    const link = element("a", "", words);
    link.href = "#differ";
    say([`${counted(results.length, "file")} looked at, and `, count === 0 ? words : link, ". Nothing was sent."]);
};

const lookAt = async (sources) => {
    const progress = byId("progress");
    Object.assign(progress, { max: Math.max(1, sources.length), value: 0, hidden: false });
    say(`Looking at ${counted(sources.length, "file")}.`);
    let painted = performance.now();
    for (let at = 0; at < sources.length; at += FILES_AT_ONCE) {
        for (const found of await Promise.all(sources.slice(at, at + FILES_AT_ONCE).map(read))) {
            keep(await judge(found));
            await restIfLong();
        }
        progress.value = Math.min(sources.length, at + FILES_AT_ONCE);
        if (performance.now() - painted < BETWEEN_PAINTS) continue;
        paint();
        await rest();
        painted = performance.now();
    }
    paint();
    progress.hidden = true;
    sayResults();
};

const SAVED = ["name", "mime_type", "extension", "encoding", "size", "decided_after", "standing", "name_says", "fault"];

/** What is saved of a file. Where the table has words, it has none. */
const savedOf = (result) => ({
    name: result.name,
    mime_type: result.wider?.mime ?? null,
    extension: result.wider?.ext ?? null,
    encoding: result.encoding ?? null,
    size: result.size ?? null,
    decided_after: result.after ?? null,
    standing: result.standing ?? null,
    name_says: result.typeOfName?.mime ?? null,
    fault: result.fault ?? null,
});

/** A cell of CSV. A program for tables takes a text that begins so for a formula, also one in wide letters, and may take
 *  a semicolon for its end. A stranger chose the name. */
const csvCell = (value) => {
    if (typeof value !== "string") return `${value ?? ""}`;
    return `"${visible(value).replace(/^[=+\-@\uFF1D\uFF0B\uFF0D\uFF20]/, "'$&").replaceAll('"', '""')}"`;
};

const csvOf = (all) => [SAVED, ...all.map((it) => SAVED.map((key) => savedOf(it)[key]))].map((cells) => `${cells.map(csvCell).join(",")}\r\n`).join("");
const jsonOf = (all) => `${JSON.stringify(all.map(savedOf), null, 1)}\n`;

const save = (name, type, text) => {
    const link = element("a", "");
    Object.assign(link, { href: URL.createObjectURL(new Blob([text], { type })), download: name });
    link.click();
    setTimeout(() => URL.revokeObjectURL(link.href), 10_000);
};

/** Small files to try the page with, two of which have a name that the bytes contradict. */
const exampleFiles = () => {
    const bytes = (digits, text = "", size = 0) => {
        const begin = Uint8Array.from(digits.match(/../g) ?? [], (it) => Number.parseInt(it, 16));
        const whole = new Uint8Array(Math.max(size, begin.length + text.length));
        whole.set(begin);
        whole.set(new TextEncoder().encode(text), begin.length);
        return whole;
    };
    const files = [
        ["holiday.jpg", bytes("ffd8ffe000104a46494600010100000100010000", "", 9000)],
        ["letter.docx", bytes("504b03041400000008000000000000000000000000000000000011000000", "word/document.xml", 9000)],
        ["drawing.svg", bytes("", '<svg xmlns="http://www.w3.org/2000/svg"><circle r="9"/></svg>\n')],
        ["notes.txt", bytes("", "Bring the blue towel.\n")],
        ["song.mp3", bytes("49443304000000000000", "TIT2", 9000)],
        ["invoice.pdf", bytes("4d5a90000300000004000000ffff0000", "", 9000)],
        ["photo.png", bytes("", "<!doctype html><title>not a photo</title>\n")],
        ["hello.py", bytes("", "print('hello')\n")],
    ];
    return files.map(([name, data]) => new File([data], name));
};

/** What is dropped meanwhile waits for its turn. */
let work = Promise.resolve();
const add = (sourcesOf) => {
    work = work.then(async () => lookAt(await sourcesOf())).catch((fault) => say(`The files could not be listed: ${fault.message}`, true));
};

const entriesIn = async (reader) => {
    const entries = [];
    // A reader gives some entries at a time, and none at the end.
    for (;;) {
        const some = await new Promise((resolve, reject) => reader.readEntries(resolve, reject));
        if (some.length === 0) return entries;
        entries.push(...some);
    }
};

/** The files below dropped entries, in the order of their names. A folder that cannot be listed is a row of faults. */
const sourcesBelow = async (entries) => {
    const sources = [];
    const waiting = [...entries].reverse();
    while (waiting.length > 0) {
        const entry = waiting.pop();
        const name = entry.fullPath.slice(1);
        if (entry.isFile) {
            sources.push({ name, open: () => new Promise((resolve, reject) => entry.file(resolve, reject)) });
            continue;
        }
        try {
            const inside = await entriesIn(entry.createReader());
            waiting.push(...inside.sort((one, other) => (one.name < other.name ? 1 : -1)));
        } catch (fault) {
            sources.push({ name, open: () => Promise.reject(fault) });
        }
    }
    return sources;
};

const sourcesOfFiles = (files) => [...files].map((file) => ({ name: file.webkitRelativePath || file.name, open: async () => file }));

const listen = () => {
    for (const id of ["files", "folder"]) {
        byId(id).addEventListener("change", ({ target }) => {
            const sources = sourcesOfFiles(target.files);
            target.value = "";
            add(() => sources);
        });
    }
    // A file that is dropped beside the target would be opened in place of the page.
    for (const name of ["dragover", "drop"]) document.addEventListener(name, (event) => event.preventDefault());
    document.addEventListener("dragenter", () => byId("target").classList.add("over"));
    document.addEventListener("dragleave", ({ relatedTarget }) => relatedTarget ?? byId("target").classList.remove("over"));
    document.addEventListener("drop", ({ dataTransfer }) => {
        byId("target").classList.remove("over");
        // The entries are gone once the event has been handled.
        const entries = [...dataTransfer.items].map((item) => item.webkitGetAsEntry()).filter(Boolean);
        add(() => sourcesBelow(entries));
    });
    byId("example").addEventListener("click", () => add(() => sourcesOfFiles(exampleFiles())));
    byId("more").addEventListener("click", () => {
        list.most += ROWS_AT_ONCE;
        paint();
    });
    byId("search").addEventListener("input", ({ target }) => {
        Object.assign(list, { words: target.value, most: ROWS_AT_ONCE });
        paint();
    });
    byId("csv").addEventListener("click", () => save("types.csv", "text/csv", csvOf(listed())));
    byId("json").addEventListener("click", () => save("types.json", "application/json", jsonOf(listed())));
    for (const button of document.querySelectorAll("thead button")) {
        button.addEventListener("click", () => {
            const { key } = button.dataset;
            Object.assign(list, { key, isDown: list.key === key && !list.isDown });
            paint();
        });
    }
    // A link to the files that differ can be kept, and the browser's way back leads back.
    const follow = () => {
        Object.assign(list, { onlyDiffering: location.hash === "#differ", most: ROWS_AT_ONCE });
        paint();
    };
    addEventListener("hashchange", follow);
    follow();
};

try {
    infer = await import("./infer/index.js");
    listen();
    say("The page is ready.");
} catch (fault) {
    for (const id of ["files", "folder", "example"]) byId(id).disabled = true;
    say(fault.message, true);
}
