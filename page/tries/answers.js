// Puts documents and files into the page as one who types and chooses, and clicks on the paths of refusals. ./try-page runs it in the
// page: `documents` are texts, and `modules` have a name and the bytes in base 64.
const at = (name) => document.getElementById(name);
const decoded = (text) => Uint8Array.from(atob(text), (it) => it.charCodeAt(0));

// Does something that has an answer, and waits for it.
const judged = (action) => new Promise((done) => {
    at("answer").addEventListener("judged", done, { once: true });
    action();
});

const typed = (text) => judged(() => {
    at("document").value = text;
    at("document").dispatchEvent(new Event("input"));
});

const chosen = (name, content) => judged(() => {
    const files = new DataTransfer();
    files.items.add(new File([content], name));
    at("file").files = files.files;
    at("file").dispatchEvent(new Event("change"));
});

// The text without the spaces outside of its strings.
const packed = (text) => text.replace(/("(?:[^"\\]|\\.)*")|\s+/g, "$1");

// The part of a document that steps lead to, or nothing where it is missing.
const partOf = (value, steps) => steps.reduce((it, step) => (Array.isArray(it) ? it[step] : undefined), value);

// What is wrong with a part that was to be shown.
function wrongIn(before, steps) {
    const area = at("document"), mark = document.querySelector("#marks mark"), view = at("view").getBoundingClientRect();
    if (!mark) return "nothing is marked";
    const rect = mark.getClientRects()[0], part = partOf(JSON.parse(area.value), steps), [start] = [area.selectionStart];
    const line = area.value.slice(area.value.lastIndexOf("\n", start - 1) + 1).split("\n")[0];
    if (document.activeElement !== area) return "the text has not the focus";
    if (area.value.slice(start, area.selectionEnd) !== mark.textContent) return `selected is not what is marked: ${mark.textContent.slice(0, 80)}`;
    if (packed(area.value) !== packed(before)) return "the text is another one";
    if (part === undefined ? mark.textContent !== "]" : JSON.stringify(JSON.parse(mark.textContent)) !== JSON.stringify(part)) {
        return `marked is another part: ${mark.textContent.slice(0, 80)}`;
    }
    if (line.length > 160 && part !== undefined && JSON.stringify(part).length < 100) return `the line is ${line.length} characters long`;
    if (rect.top < view.top - 1 || rect.top + 18 > view.bottom || rect.left < view.left - 1 || rect.left + 6 > view.right) {
        return `the mark is not in view: ${JSON.stringify([rect, view])}`;
    }
    if (view.bottom <= 0 || view.top >= innerHeight) return "the text is not on the screen";
    return "";
}

// What is wrong with what a link in a reason leads to: an item, or an expression of the function that the path is in.
function wrongAt(link, found) {
    const { steps } = JSON.parse(found.text), [, list, index] = /([a-z ]+)\[(\d+)\]$/.exec(link.textContent);
    const lists = { types: [5], constants: [8], overrides: [9], "global expressions": [10], globals: [11], functions: [12], "entry points": [13] };
    const [, owner, at] = /^(functions|entry points)\[(\d+)\]/.exec(link.textContent) ?? [];
    const inside = owner ? [owner === "functions" ? 12 : 13, Number(at)] : steps.slice(0, 2);
    link.click();
    const wrong = wrongIn(found.document, [...(lists[list] ?? { 12: [...inside, 4], 13: [...inside, 6, 4] }[inside[0]] ?? [10]), Number(index)]);
    return wrong && `${link.textContent}: ${wrong}`;
}

// What the page shows of an answer, and what is wrong with the part that is shown where its path is clicked.
function shown() {
    const found = { text: at("answer").dataset.text, verdict: at("verdict").textContent, document: at("document").value };
    found.leaves = [...document.querySelectorAll("#report details tbody tr")].map((row) => [...row.cells].map((it) => it.textContent).join(" "));
    found.details = [...document.querySelectorAll("#details > *")].map((it) => it.textContent);
    found.rows = [...document.querySelectorAll("#report > table[aria-label=Variables] tbody tr")].map((row) => [...row.cells].map((it) => it.textContent));
    if (!at("where").hidden) {
        at("path").click();
        found.wrong = wrongIn(found.document, JSON.parse(found.text).steps);
        found.isSame = at("document").value === found.document;
        found.wrong ||= [...document.querySelectorAll("#reason .link")].map((it) => wrongAt(it, found)).find((it) => it) ?? "";
    }
    return found;
}

async function answersOf(documents, modules) {
    const answers = [];
    for (const text of documents) {
        await typed(text);
        answers.push(shown());
    }
    for (const [name, text] of modules) {
        await chosen(name, decoded(text));
        answers.push(shown());
    }
    return answers;
}
