// Random pages within what adhost accepts, their printed text, and how they compare with what stands in the browser.
// A tree is a text, or `{ tag, attrs, kids }` with attributes `[name, value, shown]`: `shown` is the value that the
// node has in the page, or null where it has none.
"use strict";
const Trees = (() => {

const list = text => text.trim().split(/\s+/);
const TAGS = list(`a abbr b blockquote br button caption code dd div dl dt em h1 h2 h3 h4 h5 h6 hr i img input label li
    ol option p pre select small span strong sub sup table tbody td textarea tfoot th thead tr ul`);
const ATTRIBUTES = list(`alt checked class cols colspan disabled for height href id maxlength name rows rowspan size src
    style title type value width`);
const VOID = list("br hr img input");
const here = location.href.split("#")[0];
const origin = location.origin;

// What a script of a widget would do.
let ran = 0;
globalThis.run = () => { ran += 1; };

// Addresses with what a link shows of them.
const LINKS = [
    ["https://a.example/x?y=1&z=2#w", "https://a.example/x?y=1&z=2#w"], ["http://a.example", "http://a.example/"],
    ["mailto:ann@a.example", "mailto:ann@a.example"], ["//b.example/c", "http://b.example/c"],
    ["help.html", `${new URL("help.html", here)}`], ["HTTPS://A.example/", "https://a.example/"], ["", here],
    ["ht\ttp://a.example/", "http://a.example/"],
    ["java\tscript:run()", null], ["java\nscript:run()", null], ["JAVA\rSCRIPT:run()", null],
    [" java\t\tscript:run()", null], ["javascript\t:run()", null], ["data:text/html,<script>run()</script>", null],
    ["vbscript:run()", null], ["file:///etc/passwd", null], ["ftp://a.example/", null],
    ["blob:http://a.example/x", null],
    ["#", null], ["#top", null], ["#b_a", null], [`${here}#title`, null], ["#:~:text=a", null],
    ["http://[a", null], ["https://a.example:99999/", null], ["view-source:http://a.example/", null],
];
const SOURCES = ["cup.png", "http://a.example/a.png", "//a.example/a.png", "data:image/gif;base64,R0lGODlhAQABAAAAACw=",
    ""];
// Styles with what is kept of them.
const STYLES = [
    ["color: red", 1], ["background-color: #ffc", 1], ["border: 1px solid rgb(1, 2, 3)", 1],
    ["margin: -3px auto 0 1em", 1], ["width: 50%", 1], ["display: inline-block", 1], ["position: absolute", 1],
    ["z-index: 99999", 1], ["opacity: .5", 1], ["font-family: 'Times New Roman', serif", 1],
    ["text-decoration: underline", 1], ["white-space: pre-wrap", 1],
    ["cursor: pointer", 1], ["list-style-type: lower-roman", 1], ["font-weight: 700", 1], ["float: left", 1],
    ["cursor: image-set('x.png' 1x)", 0], ["position: fixed", 0], ["position: sticky", 0],
    ["cursor: -webkit-image-set('x.png' 1x), auto", 0], ["color: var(--secret)", 0],
    ["background-color: cross-fade('a', 'b')", 0],
    ["list-style-type: '- '", 0], ["font-family: Secret", 0], ["top: env(a)", 0], ["height: calc(1px - 2px)", 0],
];

// Whole numbers below a bound, always the same ones from one seed (mulberry32).
function chance(seed) {
    return bound => {
        seed = (seed + 0x6d2b79f5) | 0;
        let x = Math.imul(seed ^ (seed >>> 15), 1 | seed);
        x = (x + Math.imul(x ^ (x >>> 7), 61 | x)) ^ x;
        return Math.floor(((x ^ (x >>> 14)) >>> 0) / 4294967296 * bound);
    };
}

const PIECES = ["a", "B", " ", "tea ", "\n", "\r\n", "\t", "&", "<", ">", "\"", "'", "</div>", "<b>", "&amp;", "&#65;",
    "<script>run()</script>", "<!--", "-->", "é", "€", "\u00a0", "😀", "\u2028", "\ufeff"];
const WORDS = ["a", "b c", "plain", "cookie", "getElementById", "x/y-z", "", "title", "forms"];
const TYPES = [["text", 1], ["checkbox", 1], ["radio", 1], ["Number", 1], ["password", 0], ["image", 0], ["FILE", 0],
    ["a", 0], ["date", 1], ["submit", 1], ["range", 1], ["color", 1], ["hidden", 1]];

// A random slot's tree, or with `slot` "" a piece of the host's own.
function maker(below, slot) {
    const pick = items => items[below(items.length)];
    const text = () => Array.from({ length: 1 + below(4) }, () => pick(PIECES)).join("");
    const ids = new Set();
    const id = () => slot + pick(["a", "b", "c-1", "d_", "E"]) + below(99);

    function attribute(name, tag) {
        const both = value => [name, value, value];
        switch (name) {
            case "id": {
                const value = id();
                if (!slot || ids.has(value)) return null;
                ids.add(value);
                return both(value);
            }
            case "for": return slot ? both(id()) : null;
            case "class": return both(pick(WORDS));
            case "name": {
                const value = pick(WORDS);
                return [name, value, value && (slot || "html_") + value];
            }
            case "type": {
                const [value, kept] = pick(TYPES);
                return [name, value, kept || tag !== "input" ? value : null];
            }
            case "href": {
                // The host's own pieces may lead into each slot, a slot only into itself.
                if (!below(4)) return [name, `#${slot || "A_"}a1`, `${here}#${slot || "A_"}a1`];
                return [name, ...pick(LINKS)];
            }
            case "src": return [name, pick(SOURCES), null];
            case "style": return style();
            case "checked": case "disabled": return both(pick([name, ""]));
            case "cols": case "rows": case "colspan": case "rowspan": case "size": case "maxlength":
                return both(String(1 + below(9)));
            case "width": case "height": return both(String(below(200)));
            default: return both(text());
        }
    }

    function style() {
        const items = new Map(Array.from({ length: 1 + below(3) }, () => pick(STYLES))
            .map(([item, kept]) => [item.split(":")[0], [item, kept]]));
        const strong = item => item + (below(5) ? "" : " !important");
        const kept = [...items.values()].filter(item => item[1]).map(item => item[0]).join("; ");
        return ["style", [...items.values()].map(item => strong(item[0])).join("; "), kept || null];
    }

    function attributes(tag) {
        const names = new Set(Array.from({ length: below(4) }, () => pick(ATTRIBUTES)));
        return [...names].map(name => attribute(name, tag)).filter(Boolean);
    }

    function kids(depth) {
        const found = [];
        for (let i = below(depth > 8 ? 1 : 5); i > 0; i--)
            if (below(3) || typeof found.at(-1) === "string") found.push(element(depth + 1));
            else found.push(text());
        return found;
    }

    function element(depth) {
        const tag = pick(TAGS);
        return { tag, attrs: attributes(tag), kids: VOID.includes(tag) ? [] : kids(depth) };
    }

    function root() {
        const own = attributes("div").filter(([name]) => name !== "id");
        return { tag: "div", attrs: [["id", slot, slot], ...own], kids: kids(0) };
    }

    // The same tree with other attributes and texts; nodes are known by their ids and the types of fields, which stay.
    function dressed(tree) {
        if (typeof tree === "string") return below(4) ? tree : text();
        const stays = ([name]) => name === "id" || (name === "type" && tree.tag === "input");
        const others = attributes(tree.tag).filter(attr => !stays(attr));
        const attrs = below(3) ? tree.attrs : [...tree.attrs.filter(stays), ...others];
        return { ...tree, attrs, kids: tree.kids.map(dressed) };
    }

    // The same with nodes more and less.
    function changed(tree) {
        if (typeof tree === "string") return tree;
        const rest = tree.kids.filter(() => below(9)).map(changed);
        if (!below(9) && !VOID.includes(tree.tag)) rest.splice(below(rest.length + 1), 0, element(8));
        return { ...tree, kids: rest.filter((kid, i) => typeof kid !== "string" || typeof rest[i - 1] !== "string") };
    }

    return { element, root, dressed, changed };
}

// The makers of a page's parts: pieces of the host and two slots.
const makers = below => ["", "A_", "", "B_"].map(slot => maker(below, slot));
const page = parts => parts.map((part, i) => (i % 2 ? part.root() : part.element(7)));
const dressed = (parts, trees) => trees.map((tree, i) => parts[i].dressed(tree));
const changed = (parts, trees) => trees.map((tree, i) => parts[i].changed(tree));

const escaped = text => text.replace(/&/g, "&amp;").replace(/</g, "&lt;").replace(/>/g, "&gt;");

function printed(tree) {
    if (typeof tree === "string") return escaped(tree);
    const attrs = tree.attrs.map(([name, value]) => ` ${name}="${escaped(value).replace(/"/g, "&quot;")}"`).join("");
    const begin = `<${tree.tag}${attrs}>`;
    return VOID.includes(tree.tag) ? begin : `${begin}${tree.kids.map(printed).join("")}</${tree.tag}>`;
}

const printedPage = trees => `<body>${trees.map(printed).join("")}</body>`;

// Declarations as the browser writes them.
function normal(styles) {
    const node = document.createElement("i");
    node.style.cssText = styles.toLowerCase();
    return node.style.cssText;
}

function attributesDiffer(node, tree) {
    const shown = new Map(tree.attrs.filter(attr => attr[2] !== null).map(([name, , value]) => [name, value]));
    if (tree.tag === "a" && shown.has("href") && !shown.get("href").startsWith(here + "#"))
        shown.set("target", "_blank").set("rel", "noopener noreferrer");
    for (const { name, value } of node.attributes) {
        const wanted = shown.get(name);
        const isWanted = name === "style" ? normal(value) === normal(wanted ?? "") : value === wanted;
        if (!isWanted) return `${name}="${value}", not ${wanted}`;
        shown.delete(name);
    }
    return shown.size > 0 ? `no ${[...shown.keys()]}` : null;
}

// Where a node is not the tree, or null.
function nodeDiffers(node, tree, attributes) {
    const isText = node.nodeType === Node.TEXT_NODE;
    if (typeof tree === "string") return isText && node.data === tree ? null : `${node.nodeName} for a text`;
    if (node.localName !== tree.tag) return `${node.nodeName} for ${tree.tag}`;
    const found = (attributes ? attributesDiffer(node, tree) : null)
        ?? nodesDiffer([...node.childNodes], tree.kids, attributes);
    return found ? `${tree.tag}: ${found}` : null;
}

function nodesDiffer(nodes, trees, attributes) {
    if (nodes.length !== trees.length) return `${nodes.length} children for ${trees.length}`;
    for (let i = 0; i < nodes.length; i++) {
        const found = nodeDiffers(nodes[i], trees[i], attributes);
        if (found) return found;
    }
    return null;
}

// A slot's root in its box, or the node itself.
function unboxed(node) {
    if (node.className !== "adhost-slot") return node;
    const style = getComputedStyle(node);
    const isBox = node.childNodes.length === 1 && node.firstChild.id === node.dataset.slot
        && style.contain === "content" && style.isolation === "isolate" && style.overflow === "hidden";
    return isBox ? node.firstChild : document.createComment("no box");
}

const differs = (container, trees, attributes = true) =>
    nodesDiffer([...container.childNodes].map(unboxed), trees, attributes);

const textOf = tree => (typeof tree === "string" ? tree : tree.kids.map(textOf).join(""));

// Whether there is text outside the slots that the page does not have there.
function textLeaves(container, trees) {
    const rest = container.cloneNode(true);
    for (const slot of rest.querySelectorAll("#A_, #B_")) slot.remove();
    const isSlot = tree => tree.attrs?.some(([name, value]) => name === "id" && /^[AB]_$/.test(value));
    const outside = trees.filter(tree => !isSlot(tree));
    return rest.textContent !== outside.map(textOf).join("");
}

// With line feeds alone, as a parser has them.
const lines = tree =>
    (typeof tree === "string" ? tree.replace(/\r\n?/g, "\n") : { ...tree, kids: tree.kids.map(lines) });

// The properties of `document`, but for those that change by themselves.
function documentState() {
    const state = new Map();
    for (let owner = document; owner; owner = Object.getPrototypeOf(owner))
        for (const name of Object.getOwnPropertyNames(owner))
            if (!["lastModified", "activeElement"].includes(name)) state.set(name, document[name]);
    return state;
}

const documentChanges = before =>
    [...before].filter(([name, value]) => !Object.is(document[name], value)).map(([name]) => name);

// What a reader may have done in each field.
function typeEverywhere(container) {
    for (const field of container.querySelectorAll("input, textarea")) {
        if (["checkbox", "radio"].includes(field.type)) field.checked = !field.checked;
        else if (!["hidden", "submit"].includes(field.type)) field.value = "7";
    }
}

// Shows random pages, then each with other attributes, then with other nodes; what went wrong, and what the browser's
// own parser makes of them.
function random(seed, count) {
    const container = document.getElementById("container"), before = documentState();
    const answer = { nodes: 0, wrong: [], parserDiffers: 0, parserLeaves: 0 };
    for (let number = seed; number < seed + count; number++) {
        const parts = makers(chance(number)), first = page(parts);
        const second = dressed(parts, first), third = changed(parts, second);
        const note = (what, found) => { if (found) answer.wrong.push(`${number} ${what}: ${found}`); };
        const view = AdhostView.render(container, printedPage(first));
        const nodes = [...container.querySelectorAll("*")];
        note("rendered", differs(container, first));
        note("document", documentChanges(before).join());
        typeEverywhere(container);
        view.update(printedPage(second));
        note("other attributes", differs(container, second));
        const stay = [...container.querySelectorAll("*")].every((node, i) => node === nodes[i]);
        note("other attributes", stay ? null : "other nodes");
        typeEverywhere(container);
        view.update(printedPage(third));
        note("other nodes", differs(container, third));
        note("text", textLeaves(container, third) && "leaves its slot");
        for (const link of container.querySelectorAll("[href]"))
            note("link", /^(https?|mailto):/.test(new URL(link.getAttribute("href"), here).href) ? null : link.href);
        const plain = first.map(lines);
        const parsed = new DOMParser().parseFromString(`<!doctype html>${printedPage(plain)}`, "text/html").body;
        if (differs(parsed, plain, false)) answer.parserDiffers += 1;
        if (textLeaves(parsed, plain)) answer.parserLeaves += 1;
        answer.nodes += nodes.length;
    }
    container.replaceChildren();
    return answer;
}

return { ran: () => ran, printedPage, differs, textLeaves, documentState, documentChanges, random };
})();
