/*
 * adhost-view.js shows the page that adhost prints, the text `page` in the last line of a report, in a browser.
 *
 *     const view = AdhostView.render(container, pageText, options);
 *     view.update(nextPageText);
 *
 * container  an element that the view fills and keeps; no form stands round it
 * pageText   "<body>..</body>"; where adhost prints no such text: a SyntaxError, and nothing changes
 * options    what the page allows, in place of what AdhostView.defaults has under the same names:
 *
 *     links     schemes ("https:") and origins ("https://a.example") to which an `href` may lead
 *     pictures  schemes and origins from which a `src` may load; none by default, so that nothing is fetched
 *     base      the address that others are relative to; the document's by default
 *     target    where a link opens that leads out of the page
 *     types     the types that an `input` may have; another one leaves a text field
 *     fonts     the families that `font-family` may name
 *     words     the words that a style may have, beside sizes and colours
 *
 * The text is read by adhost's own grammar, never by the browser's parser, and the nodes are made one by one, so
 * the tree is the printed one. Each slot stands in a box (class `adhost-slot`, `data-slot` with its name) that clips
 * it and has its own stacking context. Each `name` gets the slot's name in front; an `id`, a `for` and a fragment
 * stay where they lead into the own slot. What is not kept is left out without a word.
 *
 * An update changes only what differs: other nodes stay, with their focus, caret and selection, and what was typed
 * or ticked stays until the page gives another `value` or `checked`.
 */
globalThis.AdhostView = (() => {
"use strict";

const list = text => Object.freeze(text.trim().split(/\s+/));

const defaults = Object.freeze({
    links: list("https: http: mailto:"),
    pictures: Object.freeze([]),
    base: undefined,
    target: "_blank",
    types: list(`button checkbox color date datetime-local email hidden month number radio range reset search
        submit tel text time url week`),
    fonts: Object.freeze(["serif", "sans-serif", "monospace", "cursive", "fantasy", "system-ui", "arial",
        "comic sans ms", "courier", "courier new", "georgia", "helvetica", "impact", "palatino", "tahoma", "times",
        "times new roman", "trebuchet ms", "verdana"]),
    // `fixed` and `sticky` are not among them.
    words: list(`auto none normal inherit initial unset
        hidden dotted dashed solid double groove ridge inset outset thin medium thick
        left right both center justify start end top bottom middle baseline sub super text-top text-bottom
        default pointer text move help wait progress crosshair not-allowed no-drop grab grabbing cell copy alias
        context-menu vertical-text all-scroll col-resize row-resize zoom-in zoom-out
        block inline inline-block list-item flow-root flex inline-flex grid inline-grid table inline-table table-row
        table-cell table-row-group table-header-group table-footer-group table-column table-column-group table-caption
        xx-small x-small small large x-large xx-large smaller larger italic oblique bold bolder lighter
        disc circle square decimal decimal-leading-zero lower-roman upper-roman lower-alpha upper-alpha lower-latin
        upper-latin lower-greek visible scroll clip collapse static relative absolute
        underline overline line-through wavy pre nowrap pre-wrap pre-line break-spaces
        min-content max-content fit-content`),
});

const TAGS = new Set(list(`a abbr b blockquote br button caption code dd div dl dt em h1 h2 h3 h4 h5 h6 hr i img input
    label li ol option p pre select small span strong sub sup table tbody td textarea tfoot th thead tr ul`));
const VOID = new Set(list("br hr img input"));
const PLAIN = new Set(list(`alt checked class cols colspan disabled height maxlength rows rowspan size title value
    width`));
const PROPERTIES = new Set(list(`background-color border border-color border-style border-width bottom clear color
    cursor display float font-family font-size font-style font-weight height left letter-spacing line-height
    list-style-type margin margin-bottom margin-left margin-right margin-top max-height max-width min-height min-width
    opacity overflow padding padding-bottom padding-left padding-right padding-top position right text-align
    text-decoration text-indent top vertical-align visibility white-space width word-spacing z-index`));

// Elements that may stand round another one.
const DEPTH = 200;
// What stands in front of the names outside all slots; a slot's name has capitals.
const NO_SLOT = "html_";
const SLOT = /^[A-Z]{1,31}_$/;
// `contain: content` clips what `overflow` does not, as a `position: fixed` and what is pulled out by a margin.
const BOX = "contain: content !important; isolation: isolate !important; display: flow-root; overflow: hidden";

/* Reading. A tree has a `tag`, `attrs` (a map), `kids`, the `key` by which it is known among its siblings and the
   `kind` of node that it can go on with, or it has a `text`; `source` is its printed text and `node` its node. */

const BEGIN = /<([a-z][a-z0-9]*)((?:[ \t\r\n]+[a-z][a-z-]*(?:="[^"<]*"|='[^'<]*')?)*)[ \t\r\n]*(\/?)>/y;
const ATTRIBUTE = /([a-z][a-z-]*)(?:="([^"<]*)"|='([^'<]*)')?/g;
const END = /<\/([a-z][a-z0-9]*)[ \t\r\n]*>/y;
const REFERENCE = /&(?:(amp|lt|gt|quot|nbsp)|#([0-9]{1,7}));|&/g;
const REFERENCES = { amp: "&", lt: "<", gt: ">", quot: '"', nbsp: "\u00a0" };

function check(holds, at) {
    if (!holds) throw new SyntaxError(`AdhostView: adhost prints no such page, near ${at}`);
}

function decoded(text, at) {
    return text.replace(REFERENCE, (whole, name, digits) => {
        if (name) return REFERENCES[name];
        const point = Number(digits);
        check(point > 0 && point < 0x110000 && (point < 0xd800 || point > 0xdfff), at);
        return String.fromCodePoint(point);
    });
}

function readAttributes(text, at) {
    const attrs = new Map();
    for (const [, name, double, single] of text.matchAll(ATTRIBUTE)) {
        const value = double ?? single ?? (name === "checked" || name === "disabled" ? name : undefined);
        check(value !== undefined && !attrs.has(name), at);
        attrs.set(name, decoded(value, at));
    }
    return attrs;
}

// The trees of a page, in order.
function read(page) {
    const source = /^<body>([^]*)<\/body>$/.exec(page)?.[1];
    check(source !== undefined, 0);
    const match = (pattern, at) => {
        pattern.lastIndex = at;
        const found = pattern.exec(source);
        check(found, at);
        return found;
    };
    const body = { kids: [] }, open = [body];
    for (let at = 0, end; at < source.length; at = end) {
        const parent = open[open.length - 1];
        if (source[at] !== "<") {
            const next = source.indexOf("<", at);
            end = next < 0 ? source.length : next;
            const text = source.slice(at, end);
            parent.kids.push({ text: decoded(text, at), source: text });
        } else if (source[at + 1] === "/") {
            const [whole, tag] = match(END, at);
            check(tag === parent.tag, at);
            end = at + whole.length;
            open.pop().source = source.slice(parent.at, end);
        } else {
            const [whole, tag, attributes, slash] = match(BEGIN, at);
            check(TAGS.has(tag) && open.length - 1 <= DEPTH && (!slash || VOID.has(tag)), at);
            end = at + whole.length;
            const attrs = readAttributes(attributes, at);
            // A field of another type is another field: the browser turns the value of one into that of the other.
            const kind = tag === "input" ? `input ${attrs.get("type")}` : tag;
            const tree = { tag, kind, attrs, key: attrs.get("id"), kids: [], source: whole, at };
            parent.kids.push(tree);
            if (!VOID.has(tag)) open.push(tree);
        }
    }
    check(open.length === 1, source.length);
    return body.kids;
}

/* What is kept. */

const SIZE = /^-?(?:[0-9]+\.?[0-9]*|\.[0-9]+)(?:%|px|em|rem|ex|ch|pt|pc|in|cm|mm|vw|vh)?$/;
const COLOUR = /^(?:#(?:[0-9a-f]{3,4}|[0-9a-f]{6}|[0-9a-f]{8})|(?:rgb|hsl)a?\([0-9., %-]*\))$/;
const isColour = part => COLOUR.test(part) || (/^[a-z]+$/.test(part) && CSS.supports("color", part));

// A function from a tree and its slot to the attributes that its node gets.
function policy(options, document) {
    const { links, pictures, target, types, words } = options;
    const fonts = options.fonts.map(font => font.toLowerCase());
    const base = options.base ?? document.baseURI;
    const here = document.URL.split("#")[0];

    function families(value) {
        const isListed = family => fonts.includes(family.replace(/^'(.*)'$/, "$1"));
        return value.split(",").map(family => family.trim()).filter(isListed).join(", ");
    }

    function isValue(value) {
        const parts = value.match(/(?:\([^)]*\)|[^ ])+/g) ?? [];
        return parts.every(part => SIZE.test(part) || words.includes(part) || isColour(part));
    }

    function styles(text) {
        const kept = [];
        for (const item of text.toLowerCase().split(";")) {
            const [property, rest = ""] = item.split(":").map(part => part.trim());
            let value = rest.replace(/ *! *important$/, "");
            if (property === "font-family") value = families(value);
            else if (!isValue(value)) value = "";
            if (PROPERTIES.has(property) && value) kept.push(`${property}: ${value}`);
        }
        return kept.join("; ") || null;
    }

    // As the browser resolves it, which leaves out tabs and line feeds.
    function resolved(value, from) {
        try {
            return new URL(value, from);
        } catch {
            return null;
        }
    }

    const isAllowed = (url, allowed) =>
        url && (allowed.includes(url.protocol) || allowed.includes(`${url.protocol}//${url.host}`));
    const isWithin = (id, slot) => /^[\w-]+$/.test(id) && id.startsWith(slot);

    function picture(value) {
        const url = resolved(value, base);
        return isAllowed(url, pictures) ? url.href : null;
    }

    function link(value, slot) {
        const url = resolved(value, /^[\0- ]*#/.test(value) ? here : base);
        if (!url?.href.startsWith(here + "#")) return isAllowed(url, links) ? url.href : null;
        const id = url.hash.slice(1);
        // What stands outside of the slots may lead into each.
        const isOwn = isWithin(id, slot) || (slot === NO_SLOT && /^[A-Z]{1,31}_[\w-]*$/.test(id));
        return isOwn ? url.href : null;
    }

    function kept(name, value, tag, slot) {
        switch (name) {
            case "id": case "for": return isWithin(value, slot) ? value : null;
            case "name": return value && slot + value;
            case "type": return tag !== "input" || types.includes(value.toLowerCase()) ? value : null;
            case "style": return styles(value);
            case "src": return picture(value);
            case "href": return link(value, slot);
            default: return PLAIN.has(name) ? value : null;
        }
    }

    return (tree, slot) => {
        const attrs = new Map();
        for (const [name, given] of tree.attrs) {
            const value = kept(name, given, tree.tag, slot);
            if (value !== null) attrs.set(name, value);
        }
        const href = attrs.get("href");
        if (tree.tag === "a" && href !== undefined && !href.startsWith(here + "#"))
            attrs.set("target", target).set("rel", "noopener noreferrer");
        return attrs;
    };
}

/* Nodes. */

function setAttribute(node, name, value) {
    if (value === null) node.removeAttribute(name);
    else if (name === "style") node.style.cssText = value;
    else node.setAttribute(name, value);
}

// An attribute alone no longer shows in a field in which something was typed or ticked.
function changeAttribute(node, name, value) {
    setAttribute(node, name, value);
    if (node.localName !== "input") return;
    const isTyped = !["checkbox", "radio", "file"].includes(node.type);
    if (name === "checked") node.checked = value !== null;
    if (name === "value" && isTyped && node.value !== node.defaultValue) node.value = node.defaultValue;
}

function build(tree, document) {
    if (tree.tag === undefined) return tree.node = document.createTextNode(tree.text);
    tree.node = document.createElement(tree.tag);
    for (const [name, value] of tree.attrs) setAttribute(tree.node, name, value);
    for (const kid of tree.kids) tree.node.appendChild(build(kid, document));
    return tree.node;
}

// The old tree's node becomes that of the new one, which has the same kind and key.
function patch(old, tree) {
    const node = tree.node = old.node;
    if (tree.tag === undefined) {
        if (tree.text !== old.text) node.data = tree.text;
        return;
    }
    for (const name of old.attrs.keys()) if (!tree.attrs.has(name)) changeAttribute(node, name, null);
    for (const [name, value] of tree.attrs) if (old.attrs.get(name) !== value) changeAttribute(node, name, value);
    const written = node.defaultValue;
    patchKids(node, old.kids, tree.kids);
    if (tree.tag === "textarea" && node.defaultValue !== written && node.value !== node.defaultValue)
        node.value = node.defaultValue;
}

// The node's children become those of the new trees. Equal trees at both ends stay as they are; of the others each
// takes the node of the next old one of its kind and key, so that no node is moved.
function patchKids(node, old, trees) {
    let head = 0, oldEnd = old.length, end = trees.length;
    for (; head < Math.min(oldEnd, end) && old[head].source === trees[head].source; head++) trees[head] = old[head];
    while (Math.min(oldEnd, end) > head && old[oldEnd - 1].source === trees[end - 1].source)
        trees[--end] = old[--oldEnd];
    const places = new Map();
    for (let i = head; i < oldEnd; i++) if (old[i].key !== undefined) places.set(old[i].key, i);
    let next = head;
    const dropTo = place => { while (next < place) old[next++].node.remove(); };
    for (const tree of trees.slice(head, end)) {
        const place = tree.key === undefined ? next : places.get(tree.key) ?? -1;
        if (place >= next && place < oldEnd && old[place].kind === tree.kind && old[place].key === tree.key) {
            dropTo(place);
            patch(old[next++], tree);
        } else node.insertBefore(build(tree, node.ownerDocument), old[next]?.node ?? null);
    }
    dropTo(oldEnd);
}

class View {
    #container;
    #keep;
    #trees = [];

    constructor(container, options) {
        const unknown = Object.keys(options).filter(name => !(name in defaults));
        if (unknown.length > 0) throw new TypeError(`AdhostView: no option ${unknown}`);
        if (container.closest("form")) throw new TypeError("AdhostView: a slot's button would send the form round it");
        this.#container = container;
        this.#keep = policy({ ...defaults, ...options }, container.ownerDocument);
    }

    /** Shows another text of the page. */
    update(pageText) {
        const trees = read(pageText).map(tree => this.#boxed(tree));
        if (this.#trees.length === 0) this.#container.replaceChildren();
        patchKids(this.#container, this.#trees, trees);
        this.#trees = trees;
    }

    // A tree of the page with what is kept of its attributes; a slot's in its box.
    #boxed(tree) {
        const slot = tree.tag === "div" && SLOT.test(tree.key) ? tree.key : NO_SLOT;
        this.#reduce(tree, slot);
        if (slot === NO_SLOT) return tree;
        const attrs = new Map([["class", "adhost-slot"], ["data-slot", slot], ["style", BOX]]);
        return { tag: "div", kind: "box", attrs, key: slot, kids: [tree], source: tree.source };
    }

    #reduce(tree, slot) {
        if (tree.tag === undefined) return;
        tree.attrs = this.#keep(tree, slot);
        for (const kid of tree.kids) this.#reduce(kid, slot);
    }
}

return Object.freeze({
    defaults,
    render(container, pageText, options = {}) {
        const view = new View(container, options);
        view.update(pageText);
        return view;
    },
});
})();
