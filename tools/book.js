"use strict";

// A name in a contract unfolds its definition below the line in which it stands, and folds it again. Where a definition is
// not known, or a key is held to open it elsewhere, the link leads on.
document.addEventListener("click", (event) => {
    const name = event.target.closest("a.name");
    if (!name || !(name.dataset.key in DEFINITIONS) || event.ctrlKey || event.metaKey || event.shiftKey || event.button !== 0) return;
    event.preventDefault();
    const line = name.closest("li, pre");
    const before = [...line.parentElement.querySelectorAll(":scope > .unfolded, :scope > li > .unfolded")].find((it) => it.dataset.key === name.dataset.key);
    if (before) {
        before.remove();
        name.setAttribute("aria-expanded", "false");
        return;
    }
    const box = document.createElement("div");
    box.className = "unfolded";
    box.dataset.key = name.dataset.key;
    box.innerHTML = `<strong>${name.textContent}</strong>${DEFINITIONS[name.dataset.key]}`;
    if (line.tagName === "LI") line.append(box);
    else line.after(box);
    name.setAttribute("aria-expanded", "true");
});

// The first fifty calls and definitions that have the words, those first that begin with them.
const search = document.getElementById("search");
search?.addEventListener("input", () => {
    const wanted = search.value.trim().toLowerCase();
    const rank = ([name]) => (name.toLowerCase() === wanted ? 0 : name.toLowerCase().startsWith(wanted) ? 1 : name.toLowerCase().includes(wanted) ? 2 : 3);
    const found = wanted ? INDEX.filter(([name, , words]) => `${name} ${words}`.toLowerCase().includes(wanted)) : [];
    found.sort((one, other) => rank(one) - rank(other));
    document.getElementById("found").replaceChildren(...found.slice(0, 50).map(([name, place, words]) => {
        const item = document.createElement("li");
        const link = Object.assign(document.createElement("a"), { href: place, textContent: name });
        item.append(link, " ", Object.assign(document.createElement("span"), { textContent: words }));
        return item;
    }));
});

const filter = document.getElementById("filter");
filter?.addEventListener("input", () => {
    const wanted = filter.value.trim().toLowerCase();
    const rows = [...document.querySelectorAll(".types tbody tr")];
    for (const row of rows) row.hidden = !row.textContent.toLowerCase().includes(wanted);
    document.getElementById("count").textContent = `${rows.filter((it) => !it.hidden).length} of ${rows.length}`;
});
