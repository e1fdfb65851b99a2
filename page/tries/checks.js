// What is wrong with the page for those who see little, use no mouse or hear it: lists of findings, empty where nothing is. ./try-page
// runs it in the page.
const all = (selector, from = document) => [...from.querySelectorAll(selector)];
const isVisible = (it) => it.getClientRects().length > 0 && getComputedStyle(it).visibility === "visible";
const titled = (it) => `${it.tagName.toLowerCase()}${it.id ? `#${it.id}` : ""} "${(it.textContent || "").trim().slice(0, 30)}"`;

// --- names, headings, regions

function nameOf(it) {
    const by = (it.getAttribute("aria-labelledby") ?? "").split(/\s+/).filter(Boolean).map((id) => document.getElementById(id)?.textContent ?? "");
    const labels = [...(it.labels ?? [])].map((label) => label.textContent);
    const content = ["BUTTON", "SUMMARY", "A"].includes(it.tagName) ? it.textContent : "";
    return (by.join(" ") || it.getAttribute("aria-label") || labels.join(" ") || content).trim();
}

function namesWrong() {
    const controls = all("button, input, select, textarea, summary, a[href], [tabindex]").filter(isVisible), wrong = [];
    for (const it of controls) {
        if (!nameOf(it)) wrong.push(`no name: ${titled(it)}`);
        if (it.tagName === "BUTTON" && !nameOf(it).includes(it.textContent)) wrong.push(`the name has not what is seen: ${titled(it)}`);
        if (it.tabIndex !== 0) wrong.push(`out of the order of the page: ${titled(it)}`);
        for (const id of (it.getAttribute("aria-describedby") ?? "").split(/\s+/).filter(Boolean)) {
            if (!document.getElementById(id)) wrong.push(`described by nothing: ${titled(it)}`);
        }
    }
    return wrong;
}

function headingsWrong() {
    const levels = all("h1, h2, h3, h4, h5, h6").filter(isVisible).map((it) => Number(it.tagName[1])), wrong = [];
    if (levels.filter((it) => it === 1).length !== 1 || levels[0] !== 1) wrong.push(`not one first heading, at the top: ${levels}`);
    levels.forEach((it, index) => index > 0 && it > levels[index - 1] + 1 && wrong.push(`a level of headings is left out: ${levels}`));
    return wrong;
}

function structureWrong() {
    const wrong = [], status = document.getElementById("status"), ids = all("[id]").map((it) => it.id);
    const due = (holds, text) => holds || wrong.push(text);
    due(document.documentElement.lang === "en", "no language");
    due(document.title.trim(), "no title");
    due(/width=device-width/.test(document.querySelector("meta[name=viewport]")?.content ?? ""), "no viewport");
    due(!/user-scalable=no|maximum-scale/.test(document.querySelector("meta[name=viewport]")?.content ?? ""), "it can't be made larger");
    due(document.querySelector("meta[http-equiv=Content-Security-Policy]"), "no policy of contents");
    due(all("header").length === 1 && all("main").length === 1, "not one header and one main part");
    due(all("main > section").every((it) => nameOf(it)), "a part without a name");
    due(status.getAttribute("role") === "status" && status.getAttribute("aria-live") === "polite", "the verdict is not read aloud");
    due(status.contains(document.getElementById("verdict")) && status.contains(document.getElementById("item")), "the verdict is not in what is read aloud");
    due(new Set(ids).size === ids.length, "an id that stands twice");
    due(all("th").every((it) => it.scope === "col"), "a head of a table without its scope");
    due(all("table").every((it) => it.getAttribute("aria-label")), "a table without a name");
    due(all("script:not([src]), style, [style]:not(#marked)").length === 0, "scripts or styles in the page itself");
    const isHere = (url) => url.protocol === location.protocol && url.host === location.host;
    due(all("[src], link[href]").every((it) => isHere(new URL(it.src || it.href))), "something of another place");
    return [...wrong, ...headingsWrong()];
}

// --- contrast, by WCAG 2.2

const parts = (color) => (/rgba?\(([^)]*)\)/.exec(color)?.[1] ?? "0,0,0,0").split(/[,\s/]+/).map(Number);

function luminance([red, green, blue]) {
    const of = (it) => (it / 255 <= 0.04045 ? it / 255 / 12.92 : ((it / 255 + 0.055) / 1.055) ** 2.4);
    return 0.2126 * of(red) + 0.7152 * of(green) + 0.0722 * of(blue);
}

function contrast(one, other) {
    const [less, more] = [luminance(parts(one)), luminance(parts(other))].sort((a, b) => a - b);
    return (more + 0.05) / (less + 0.05);
}

// The ground of an element: of the first that has one, from it outwards.
function ground(it) {
    for (let at = it; at; at = at.parentElement) {
        const [, , , alpha = 1] = parts(getComputedStyle(at).backgroundColor);
        if (alpha === 1) return getComputedStyle(at).backgroundColor;
        if (alpha > 0) return "rgb(127, 127, 127)";
    }
    return "rgb(255, 255, 255)";
}

function contrastWrong() {
    const wrong = [];
    let count = 0;
    const due = (one, other, least, text) => {
        count++;
        if (contrast(one, other) < least) wrong.push(`contrast ${contrast(one, other).toFixed(2)}: ${text}`);
    };
    const hasText = (it) => [...it.childNodes].some((node) => node.nodeType === 3 && node.data.trim()) || it.tagName === "TEXTAREA";
    for (const it of all("body *").filter((it) => isVisible(it) && hasText(it) && !it.closest("#marks, script, noscript, option"))) {
        due(getComputedStyle(it).color, ground(it), 4.5, titled(it));
    }
    const area = document.getElementById("document"), mark = document.querySelector("#marks mark");
    if (mark) due(getComputedStyle(area).color, getComputedStyle(mark).backgroundColor, 4.5, "the text of the part that is marked");
    const style = getComputedStyle(document.documentElement);
    const color = (name) => {
        const probe = document.body.appendChild(document.createElement("i"));
        probe.className = "probe";
        probe.style.color = style.getPropertyValue(name);
        const found = getComputedStyle(probe).color;
        probe.remove();
        return found;
    };
    for (const edge of ["--edge", "--ring"]) {
        for (const on of ["--panel", "--ground"]) due(color(edge), color(on), 3, `${edge} on ${on}`);
    }
    for (const kind of ["accepted", "refused"]) due(color(`--${kind}-ink`), color(`--${kind}`), 4.5, kind);
    return { wrong, count };
}

// --- what is off the screen, and what moves

function offScreen() {
    const wrong = [], width = document.documentElement.clientWidth;
    if (document.scrollingElement.scrollWidth > width) wrong.push(`the page is ${document.scrollingElement.scrollWidth} wide on ${width}`);
    for (const it of all("body *").filter((it) => isVisible(it) && !it.closest("#marks"))) {
        const { left, right } = it.getBoundingClientRect();
        if (left < -0.5 || right > width + 0.5) wrong.push(`off the screen, ${Math.round(left)} to ${Math.round(right)}: ${titled(it)}`);
        const isCut = it.scrollWidth > it.clientWidth + 1 && getComputedStyle(it).overflowX !== "visible";
        if (isCut && !it.matches("textarea, select, #view, input")) wrong.push(`cut off: ${titled(it)}`);
    }
    return wrong;
}

function moving() {
    const moves = (it) => {
        const style = getComputedStyle(it), times = [style.transitionDuration, style.animationDuration];
        return style.scrollBehavior === "smooth" || times.some((time) => parseFloat(time) > 0);
    };
    return all("*").filter(moves).map((it) => `moves: ${titled(it)}`);
}

// The thing with the focus, and whether it is seen to have it.
function focused() {
    const it = document.activeElement, style = getComputedStyle(it), rect = it.getBoundingClientRect();
    const isRinged = style.outlineStyle !== "none" && parseFloat(style.outlineWidth) >= 2;
    return { id: it.id, tag: it.tagName.toLowerCase(), text: it.textContent.trim().slice(0, 60), isRinged, isOn: rect.bottom > 0 && rect.top < innerHeight };
}
