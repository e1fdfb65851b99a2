// Parts of the page that show an answer. All that comes from a document is put in as text.
"use strict";

const Report = (() => {
    // The places of lists in a document, and of what is read of their items (docs/FORMAT.md).
    const TYPES = 5, GLOBALS = 11, ENTRY_POINTS = 13;
    const [GLOBAL_NAME, GLOBAL_SPACE, GLOBAL_RESOURCE, GLOBAL_TYPE] = [0, 1, 2, 3];
    const [ENTRY_STAGE, ENTRY_NAME] = [0, 1];
    const [TYPE_NAME, TYPE_INNER] = [0, 1];
    const FUNCTIONS = 12, FUNCTION_NAME = 0;

    // What is shown is bounded, however much a document has: the rows of a table, entry points, lists of leaves, for how many leaves in
    // all these are open, and how many types inside of each other a text names.
    const MOST_ROWS = 500;
    const MOST_ENTRIES = 100;
    const MOST_LISTS = 50;
    const OPEN_LEAVES = 24;
    const MOST_TYPES = 4;

    // An element with text or with others inside.
    function made(name, ...inside) {
        const it = document.createElement(name);
        it.append(...inside);
        return it;
    }

    // A button that looks like a link, and says what it does.
    function link(text, label, action) {
        const it = made("button", text);
        it.type = "button";
        it.className = "link";
        it.setAttribute("aria-label", label);
        it.onclick = action;
        return it;
    }

    function head(text) {
        const it = made("th", text);
        it.scope = "col";
        return it;
    }

    // A table, and how many rows more there are, which the program lists.
    function table(label, heads, rows, words = "") {
        const body = rows.slice(0, MOST_ROWS).map((row) => made("tr", ...row.map((it) => made("td", String(it)))));
        const it = made("table", made("thead", made("tr", ...heads.map(head))), made("tbody", ...body));
        it.setAttribute("aria-label", label);
        return rows.length > MOST_ROWS ? [it, more(rows.length - MOST_ROWS, words)] : [it];
    }

    const more = (count, words = "") => made("p", `.. and ${count} more, which ./shader-check${words} lists`);

    // --- what a document says of its items

    // A type in short: its name, or what it is.
    function typeText(types, handle, depth = MOST_TYPES) {
        const type = types[handle];
        if (!type || depth === 0) return `types[${handle}]`;
        if (type[TYPE_NAME] !== null) return type[TYPE_NAME];
        const [kind, ...parts] = type[TYPE_INNER], inside = () => typeText(types, parts[0], depth - 1) + count(parts[1]);
        switch (kind) {
            case "Scalar": return parts[0];
            case "Vector": return `vec${parts[0]}<${parts[1]}>`;
            case "Matrix": return `mat${parts[0]}x${parts[1]}<${parts[2]}>`;
            case "Atomic": return `atomic<${parts[0]}>`;
            case "Array": return `array of ${inside()}`;
            case "BindingArray": return `binding array of ${inside()}`;
            case "Struct": return `the struct types[${handle}]`;
            default: return [kind, ...parts.flat(2).filter((it) => typeof it === "string")].join(" ");
        }
    }

    const count = ([kind, number]) => (kind === "Constant" ? `, ${number}` : kind === "Pending" ? `, by overrides[${number}]` : "");

    // A space in short, with its accesses.
    const spaceText = (space) => (Array.isArray(space) ? [space[0], ...space[1]].join(" ") : space);

    const named = (index, name) => (name ? `${index} ${name}` : String(index));

    // A document's variables and entry points as they are shown. Of what is no document there are none.
    function itemsOf(text) {
        try {
            const lists = JSON.parse(text), types = lists[TYPES];
            const globals = lists[GLOBALS].map((it, index) => ({
                title: named(index, it[GLOBAL_NAME]),
                resource: it[GLOBAL_RESOURCE],
                space: spaceText(it[GLOBAL_SPACE]),
                type: typeText(types, it[GLOBAL_TYPE]),
            }));
            const entries = lists[ENTRY_POINTS].map((it, index) => ({ title: named(index, it[ENTRY_NAME]), stage: it[ENTRY_STAGE] }));
            return { globals, entries };
        } catch {
            return { globals: [], entries: [] };
        }
    }

    // --- what is known of a refusal besides its reason

    // The name of a function or an entry point in a document, where it has one.
    function nameIn(text, list, index, field) {
        try {
            return JSON.parse(text)[list][index][field];
        } catch {
            return null;
        }
    }

    // The function or the entry point that the part is in, and the part: an expression, or a statement by its index in each block.
    function placeText({ entry, function: index, expression, body }, text) {
        const isEntry = entry !== undefined;
        const name = isEntry ? nameIn(text, ENTRY_POINTS, entry, ENTRY_NAME) : nameIn(text, FUNCTIONS, index, FUNCTION_NAME);
        const owner = isEntry ? `entry point ${named(entry, name)}` : `function ${named(index, name)}`;
        if (body?.length) return `${owner}, statement ${body.join(".")}`;
        return expression === undefined || expression === null ? owner : `${owner}, expression ${expression}`;
    }

    // The rule that is broken, with the types or the index that break it.
    function causeText({ name, given, wanted, index, parts }) {
        const found = [name];
        if (given !== undefined) found.push(`found ${given}`);
        if (wanted !== undefined) found.push(`wanted ${wanted}`);
        if (index !== undefined) found.push(parts ? `index ${index} of ${parts}` : `index ${index}`);
        return found.join(", ");
    }

    // The name of an error, and of those that it has as its only field, from the outside in.
    function errorText(name, fields) {
        const only = Array.isArray(fields) && fields.length === 1 ? fields[0] : null;
        return only?.name ? `${name}, ${errorText(only.name, only.fields)}` : name;
    }

    // The names of the error, the place and the cause, as terms with what they are.
    function detailsOf(found, text) {
        const rows = [["Error", found.error && errorText(found.error, found.fields)]];
        if (found.place) rows.push(["Place", placeText(found.place, text)]);
        if (found.cause) rows.push(["Cause", causeText(found.cause)]);
        return rows.filter(([, it]) => it).flatMap(([term, it]) => [made("dt", term), made("dd", it)]);
    }

    // --- the report of what is accepted

    function variables(items) {
        const rows = items.globals.map((it) => [it.title, it.resource?.join(", ") ?? "", it.space, it.type]);
        return [made("h3", "Variables"), ...table("Variables", ["variable", "group, binding", "space", "type"], rows)];
    }

    // The leaves of each buffer, out of the lines of --leaves. A path may have spaces in it that are not ASCII.
    function leavesOf(lines) {
        const found = new Map();
        let leaves = [];
        for (const line of lines.split("\n")) {
            const [kind, ...words] = line.split(" ");
            if (kind === "buffer") found.set(Number(words[0]), (leaves = []));
            if (kind === "leaf") leaves.push([...words.slice(0, 4), words.slice(4).filter((it) => it !== "stride").join(", ")]);
        }
        return found;
    }

    function leafList(title, leaves, isOpen) {
        const of = `Leaves of ${title}`, list = table(of, ["leaf", "offset", "length", "alignment", "stride"], leaves, " --leaves");
        const it = made("details", made("summary", `${of}: ${leaves.length}`), ...list);
        it.open = isOpen;
        return it;
    }

    function buffers(found, title, lines) {
        const rows = found.buffers.map((it) => [title(it.global), it.size, it.alignment]);
        const leaves = leavesOf(lines ?? ""), total = [...leaves.values()].reduce((sum, it) => sum + it.length, 0);
        const lists = [...leaves].slice(0, MOST_LISTS).map(([global, it]) => leafList(title(global), it, total <= OPEN_LEAVES));
        if (leaves.size > MOST_LISTS) lists.push(more(leaves.size - MOST_LISTS, " --leaves"));
        if (lines === null) lists.push(made("p", "There are more leaves than this page has room for; ./shader-check --leaves lists them."));
        return [made("h3", "Buffers"), ...table("Buffers", ["variable", "size", "alignment"], rows), ...lists];
    }

    function entryPoint(entry, heading, title) {
        const rows = entry.globals.map((it) => [title(it.global), it.uses.join(" ")]);
        for (const it of entry.samples) rows.push([title(it.image), `sampled by ${title(it.sampler)}`]);
        if (entry.payload !== null) rows.push([title(entry.payload), "payload"]);
        if (entry.mesh !== null) rows.push([title(entry.mesh), "mesh output"]);
        return [made("h3", heading), ...(rows.length ? table(heading, ["variable", "use"], rows) : [made("p", "uses no variable")])];
    }

    // What an answer reports, with names out of the document, and the lines of leaves: null where there was no room for them.
    function partsOf(found, text, lines) {
        if (found.verdict !== "accepted") return [];
        const items = itemsOf(text), parts = items.globals.length ? variables(items) : [];
        const title = (index) => items.globals[index]?.title ?? String(index);
        if (found.buffers?.length) parts.push(...buffers(found, title, lines));
        const entries = found.entry_points ?? [];
        entries.slice(0, MOST_ENTRIES).forEach((entry, index) => {
            const it = items.entries[index];
            parts.push(...entryPoint(entry, `Entry point ${it?.title ?? index}${it ? `, ${it.stage}` : ""}`, title));
        });
        if (entries.length > MOST_ENTRIES) parts.push(more(entries.length - MOST_ENTRIES));
        return parts;
    }

    return { detailsOf, link, made, partsOf };
})();
