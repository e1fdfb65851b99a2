// Where the parts of a JSON text are, and the text in lines in which they can be seen. Numbers and strings stay as they are written.
"use strict";

const Layout = (() => {
    // How long a line may be for what is in it to be seen, and how long a line becomes.
    const LONGEST = 160;
    const WIDTH = 100;
    const NO_SPACE = /[^ \t\n\r]/g;
    const QUOTE = /["\\]/g;
    const END = /[[\]{},:"\s]/g;
    const BRACKET = /["[\]{}]/g;

    // The first match of a pattern from a place on, or the text's end.
    function find(pattern, text, at) {
        pattern.lastIndex = at;
        const found = pattern.exec(text);
        return found ? found.index : text.length;
    }

    const skipSpace = (text, at) => find(NO_SPACE, text, at);

    function endOfString(text, start) {
        for (let at = start + 1; ; at += 2) {
            at = find(QUOTE, text, at);
            if (at >= text.length) return text.length;
            if (text[at] === '"') return at + 1;
        }
    }

    // The end of the bracket, comma, string or word that begins at a place.
    function endOfToken(text, start) {
        if (text[start] === '"') return endOfString(text, start);
        return Math.max(start + 1, find(END, text, start));
    }

    // The end of the value that begins at a place.
    function endOf(text, start) {
        let depth = 0;
        for (let at = start; at < text.length; at = find(BRACKET, text, at)) {
            if (text[at] === "[" || text[at] === "{") depth++;
            if (text[at] === "]" || text[at] === "}") depth--;
            at = endOfToken(text, at);
            if (depth <= 0) return at;
        }
        return text.length;
    }

    // Where the next item of a list begins, or the list's end.
    function nextItem(text, start) {
        const at = skipSpace(text, endOf(text, start));
        return text[at] === "," ? skipSpace(text, at + 1) : at;
    }

    // Where the parts begin that steps lead through, from the whole on. Of a part that is missing, the bracket before which it is wanted.
    function startsOf(text, steps) {
        const starts = [skipSpace(text, 0)];
        for (const step of steps) {
            let start = starts.at(-1);
            if (text[start] !== "[") break;
            start = skipSpace(text, start + 1);
            for (let left = step; left > 0 && start < text.length && text[start] !== "]"; left--) start = nextItem(text, start);
            starts.push(start);
        }
        return starts;
    }

    // Where the part is that steps lead to: [start, end].
    function placeOf(text, steps) {
        const start = startsOf(text, steps).at(-1);
        return [start, endOf(text, start)];
    }

    // Where a character is by its line and the byte of the line, both counted from 1, or the last one before.
    function placeOfColumn(text, line, column) {
        let start = 0;
        for (let left = line; left > 1; left--) {
            const end = text.indexOf("\n", start);
            if (end < 0) break;
            start = end + 1;
        }
        const [, end] = lineAround(text, start);
        const before = new TextEncoder().encode(text.slice(start, end)).slice(0, Math.max(0, column - 1));
        const at = Math.min(start + new TextDecoder().decode(before).length, Math.max(start, end - 1));
        return [at, Math.min(at + 1, text.length)];
    }

    // Where the bytes from an offset on are, so many: [start, end].
    function placeOfBytes(text, offset, length) {
        const bytes = new TextEncoder().encode(text), decoder = new TextDecoder();
        const start = decoder.decode(bytes.slice(0, offset)).length;
        return [start, Math.max(start + decoder.decode(bytes.slice(offset, offset + length)).length, Math.min(start + 1, text.length))];
    }

    // The line that a place is in: [start, end].
    function lineAround(text, at) {
        const end = text.indexOf("\n", at);
        return [text.lastIndexOf("\n", at - 1) + 1, end < 0 ? text.length : end];
    }

    // A value as the string of it, or as the list of its items.
    function parsed(text) {
        const root = [], open = [root];
        for (let at = skipSpace(text, 0); at < text.length; at = skipSpace(text, at)) {
            const end = text[at] === "{" ? endOf(text, at) : endOfToken(text, at);
            const item = text[at] === "[" ? [] : text.slice(at, end);
            if (text[at] === "]") open.pop();
            else if (text[at] !== ",") open.at(-1).push(item);
            if (text[at] === "[") open.push(item);
            at = end;
        }
        return root[0];
    }

    // Whether items are such that each has a line of its own: types, variables, expressions, statements.
    const isRows = (items) => items.length > 1 && items.every(Array.isArray) && items.some((it) => it.length > 0);

    // Of what is laid out as a string, in one line, or as a list of lines.
    const isLine = (it) => typeof it === "string";

    // The lines of a list whose items have a line each, or more.
    function rows(parts) {
        const lines = ["["];
        for (const part of parts) {
            if (isLine(part)) lines.push(` ${part},`);
            else for (const line of part) lines.push(` ${line}`);
            if (!isLine(part)) lines[lines.length - 1] += ",";
        }
        lines[lines.length - 1] = lines.at(-1).slice(0, -1);
        lines.push("]");
        return lines;
    }

    // The lines of a list whose items are short or have lines of their own: short ones stand together.
    function mixed(parts) {
        const lines = ["["];
        parts.forEach((part, index) => {
            const isTogether = index === 0 || (isLine(part) && lines.at(-1).length + part.length < WIDTH);
            const [first, ...others] = isLine(part) ? [part] : part;
            if (isTogether) lines[lines.length - 1] += first;
            else lines.push(` ${first}`);
            for (const line of others) lines.push(` ${line}`);
            lines[lines.length - 1] += index < parts.length - 1 ? "," : "]";
        });
        return lines;
    }

    // A value in a line, or in lines.
    function laidOut(value) {
        if (isLine(value)) return value;
        const parts = value.map(laidOut);
        if (isRows(value)) return rows(parts);
        const length = parts.reduce((sum, part) => sum + (isLine(part) ? part.length + 1 : WIDTH), 1);
        return length <= WIDTH ? `[${parts.join(",")}]` : mixed(parts);
    }

    // A JSON text in lines, with so much before each but the first. What is no JSON stays as it is.
    function inLines(text, indent = "") {
        try {
            JSON.parse(text);
        } catch {
            return text;
        }
        return [laidOut(parsed(text))].flat().join(`\n${indent}`);
    }

    function isSeen(text, start) {
        const [first, last] = lineAround(text, start);
        return last - first <= LONGEST;
    }

    // The text with the part that steps lead to where it can be seen. Of a long line it lays out the outermost value that has the part
    // in it; lines that are short stay as they are.
    function showing(text, steps) {
        const starts = startsOf(text, steps);
        if (isSeen(text, starts.at(-1))) return text;
        const outermost = starts.map((start) => [start, endOf(text, start)]).find(([start, end]) => !text.slice(start, end).includes("\n"));
        if (!outermost) return inLines(text);
        const [start, end] = outermost, indent = /^[ \t]*/.exec(text.slice(lineAround(text, start)[0], start))[0];
        const laid = text.slice(0, start) + inLines(text.slice(start, end), indent) + text.slice(end);
        return isSeen(laid, startsOf(laid, steps).at(-1)) ? laid : inLines(text);
    }

    return { inLines, placeOf, placeOfBytes, placeOfColumn, showing };
})();
