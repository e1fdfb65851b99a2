// Judges the document or the WGSL in the page while it is typed, or a file, and shows the answer. EXAMPLES, SPIRV_EXAMPLES and
// WGSL_EXAMPLES are those of out/module.js.
"use strict";

(() => {
    const $ = (name) => document.getElementById(name);
    const FIRST = "shader-vertex-and-fragment-lit-texture";
    // What a module of SPIR-V begins with, in either order of bytes.
    const MAGIC = [[3, 2, 35, 7], [7, 35, 2, 3]];
    // What a document begins with, or anything but WGSL.
    const NO_WGSL = /^\s*(?:["[{]|$)/;
    // The longest text that is shown: longer ones are no documents.
    const LONGEST = 2 ** 24;

    // The names of lists in paths, and their places in a document, in a function and in an entry point.
    const LISTS = { types: 5, constants: 8, overrides: 9, "global expressions": 10, globals: 11, functions: 12, "entry points": 13 };
    const EXPRESSIONS = { 12: [4], 13: [6, 4] };
    const EXPRESSION = /(?:(functions|entry points)\[(\d+)\](?:\.function)?\.)?\bexpressions\[(\d+)\]/;
    const ITEM = new RegExp(`(${Object.keys(LISTS).join("|")})\\[(\\d+)\\]`);
    const NAMED = new RegExp(`${EXPRESSION.source}|${ITEM.source}`, "g");

    // --- the document

    // Puts a text in, if it is another one. What was marked is so no longer.
    function putText(text) {
        const area = $("document");
        if (area.value !== text) area.value = text;
        $("marked").replaceChildren();
    }

    // The marks lie under the text, and move with it.
    function moveMarks() {
        const area = $("document");
        $("marked").style.transform = `translate(${-area.scrollLeft}px, ${-area.scrollTop}px)`;
    }

    // Marks a part of the text, selects it and scrolls to it.
    function mark([start, end]) {
        const area = $("document"), text = area.value, part = Report.made("mark", text.slice(start, end) || " ");
        $("marked").replaceChildren(text.slice(0, start), part);
        area.focus();
        area.setSelectionRange(start, end);
        const line = parseFloat(getComputedStyle(area).lineHeight), base = $("marked").getBoundingClientRect();
        const at = part.getClientRects()[0], top = at.top - base.top, left = at.left - base.left;
        area.scrollTop = top - Math.min(4 * line, area.clientHeight / 3);
        const past = left + at.width + line - area.clientWidth;
        area.scrollLeft = Math.max(0, Math.min(past, left - line));
        moveMarks();
    }

    // Shows the part that steps lead to, in lines in which it can be seen.
    function showPart(steps) {
        putText(Layout.showing($("document").value, steps));
        mark(Layout.placeOf($("document").value, steps));
    }

    // Underlines a part of the text, and leaves the cursor where it is.
    function underline([start, end]) {
        const text = $("document").value;
        $("marked").replaceChildren(text.slice(0, start), Report.made("u", text.slice(start, end) || " "));
    }

    const placeIn = ({ offset, length }) => Layout.placeOfBytes($("document").value, offset, length);

    function showColumn(line, column) {
        mark(Layout.placeOfColumn($("document").value, line, column));
    }

    // --- the answer

    // Writes a text, if it is another one, so that what is read aloud is new.
    function write(name, text) {
        if ($(name).textContent !== text) $(name).textContent = text;
    }

    // A text with a link for each match.
    function withLinks(text, pattern, linked) {
        const parts = [];
        let at = 0;
        for (const match of text.matchAll(pattern)) {
            parts.push(text.slice(at, match.index), linked(match));
            at = match.index + match[0].length;
        }
        return [...parts, text.slice(at)];
    }

    // The steps to what a reason names: an item of the document, or an expression of the function that is named or that the path is in,
    // or a global one.
    function stepsTo([, owner, at, expression, list, index], steps) {
        if (list) return [LISTS[list], Number(index)];
        const inside = owner ? [LISTS[owner], Number(at)] : steps.slice(0, 2);
        const all = inside[0] in EXPRESSIONS ? [...inside, ...EXPRESSIONS[inside[0]]] : [LISTS["global expressions"]];
        return [...all, Number(expression)];
    }

    // What a reason names as a link to it.
    const pathLink = (steps) => (match) => Report.link(match[0], `Show ${match[0]} in the document`, () => showPart(stepsTo(match, steps)));

    // A line and a column as a link to the character.
    function columnLink([text, line, column]) {
        return Report.link(text, `Show ${text} in the document`, () => showColumn(Number(line), Number(column)));
    }

    // The reason of WGSL that is wrong, with its line and column as a link.
    function wgslReason(found) {
        const place = `${found.wgsl.line}:${found.wgsl.column}`;
        const shown = Report.link(place, `Show ${place}, line and column, in the text`, () => mark(placeIn(found.wgsl)));
        const text = found.text.endsWith(` at ${place}`) ? found.text.slice(0, -place.length) : `${found.text} at `;
        return [text, shown];
    }

    // The reason after its path, with links.
    function reasonOf(found) {
        if (found.wgsl) return wgslReason(found);
        const isAfterPath = found.path && found.text.startsWith(found.path);
        const text = isAfterPath ? found.text.slice(found.path.length).replace(/^: /, "") : (found.text ?? "");
        const from = found.spirv ? ` (${found.spirv.opcode}${found.spirv.name ? ` "${found.spirv.name}"` : ""} at word ${found.spirv.word}, ${found.spirv.at})` : "";
        if (found.step === "document" && !found.path) return withLinks(text, /line (\d+), column (\d+)/g, columnLink);
        return found.verdict === "refused" ? withLinks(text + from, NAMED, pathLink(found.steps)) : [text];
    }

    function showPath(found) {
        const isThere = found.verdict === "refused" && Boolean(found.path) && !found.wgsl;
        $("where").hidden = !isThere;
        write("path", found.path ?? "");
        $("path").setAttribute("aria-label", `Show ${found.path} in the document`);
        $("path").onclick = () => showPart(found.steps);
    }

    // Shows what is found of an input, of which this is the document.
    function showFound(found, lines = "", said = $("document").value) {
        $("verdict").className = found.verdict;
        write("verdict", found.verdict + (found.strict ? " strict" : ""));
        const item = [found.step, found.index ?? "", found.name ?? ""].join(" ").trim();
        write("item", found.verdict === "refused" ? `at the step ${item}` : "");
        showPath(found);
        $("reason").replaceChildren(...reasonOf(found));
        const details = Report.detailsOf(found, said);
        $("details").hidden = details.length === 0;
        $("details").replaceChildren(...details);
        $("report").replaceChildren(...Report.partsOf(found, said, lines));
        if (found.wgsl) underline(placeIn(found.wgsl));
    }

    // Shows an answer. ./try-page reads it from the page.
    function showAnswer(answer, lines, said) {
        const fault = { verdict: "no verdict", text: `This browser gave no answer: ${answer.fault}` };
        showFound(answer.fault ? fault : JSON.parse(answer.text), lines, said);
        $("answer").dataset.text = answer.text ?? "";
        $("answer").dispatchEvent(new Event("judged"));
    }

    // --- judging

    // How many inputs there were: the answer on any but the last is not shown.
    let turns = 0;
    let waiting = 0;

    // Judges an input, and shows the answer; of a module of SPIR-V that was read also the document that it says.
    async function judge(input, kind) {
        clearTimeout(waiting);
        const turn = ++turns;
        const answer = await Program.run(input, Program.JSON_ANSWER, kind);
        const hasDocument = kind !== Program.PLAIN && (answer.status === 0 || answer.status === 1);
        const said = hasDocument ? await Program.run(input, Program.DOCUMENT, kind) : null;
        const leaves = answer.status === 0 ? await Program.run(input, Program.LEAVES, kind) : { text: "" };
        if (turn !== turns) return;
        if (kind === Program.SPIRV) putText(Layout.inLines(said?.text ?? ""));
        showAnswer(answer, leaves.text ?? null, said?.text);
    }

    // What a text is: a document, or WGSL.
    const kindOf = (text) => (NO_WGSL.test(text) ? Program.PLAIN : Program.WGSL);

    function judgeTyped() {
        const text = $("document").value;
        return judge(new TextEncoder().encode(text), kindOf(text));
    }

    function judgeSoon() {
        turns++;
        $("marked").replaceChildren();
        clearTimeout(waiting);
        waiting = setTimeout(judgeTyped, 100);
    }

    // Puts a document, a module or WGSL in, whatever its name is, and judges its bytes as they are.
    async function put(input) {
        const isSpirv = MAGIC.some((magic) => magic.every((it, index) => input[index] === it));
        const text = isSpirv ? "" : new TextDecoder().decode(input);
        if (!isSpirv) putText(input.length > LONGEST ? "" : text);
        await judge(input, isSpirv ? Program.SPIRV : kindOf(text.slice(0, LONGEST)));
    }

    const TEXTS = { ...EXAMPLES, ...WGSL_EXAMPLES };

    async function putExample(name) {
        const text = Object.hasOwn(TEXTS, name) ? TEXTS[name] : null;
        await put(text === null ? Program.decoded(SPIRV_EXAMPLES[name]) : new TextEncoder().encode(text));
    }

    const isExample = (name) => Object.hasOwn(TEXTS, name) || Object.hasOwn(SPIRV_EXAMPLES, name);

    async function putFile(file) {
        if (!file) return;
        $("examples").value = "";
        await put(new Uint8Array(await file.arrayBuffer()));
    }

    // --- the page

    // Takes files that are dropped anywhere.
    function takeDrops() {
        const hasFile = (event) => event.dataTransfer?.types.includes("Files");
        const dropping = (isOver) => $("view").classList.toggle("dropping", isOver);
        document.addEventListener("dragover", (event) => {
            if (!hasFile(event)) return;
            event.preventDefault();
            dropping(true);
        });
        document.addEventListener("dragleave", (event) => event.relatedTarget ?? dropping(false));
        document.addEventListener("drop", (event) => {
            if (!hasFile(event)) return;
            event.preventDefault();
            dropping(false);
            putFile(event.dataTransfer.files[0]);
        });
    }

    // What the address says after #: the name of an example, and whether its path is shown, as in #NAME!show.
    function addressed() {
        try {
            return decodeURIComponent(location.hash.slice(1)).split("!");
        } catch {
            return [""];
        }
    }

    async function open() {
        const [name, shown] = addressed();
        $("examples").value = isExample(name) ? name : FIRST;
        await putExample($("examples").value);
        if (shown === "show") $("path").click();
    }

    function begin() {
        const missing = Program.missing();
        if (missing) {
            showFound({ verdict: "no verdict", text: missing });
            return;
        }
        for (const name of [...Object.keys(TEXTS), ...Object.keys(SPIRV_EXAMPLES)]) $("examples").append(Report.made("option", name));
        $("examples").onchange = () => isExample($("examples").value) && putExample($("examples").value);
        $("document").oninput = judgeSoon;
        $("document").onscroll = moveMarks;
        $("file").onchange = () => putFile($("file").files[0]);
        addEventListener("hashchange", open);
        takeDrops();
        open();
    }

    begin();
})();
