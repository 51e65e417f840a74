// What a browser does with pages that adhost accepts and prints: each row is shown by `innerHTML` and by the viewer.
"use strict";
const Rows = (() => {

const el = (tag, ...kids) => ({ tag, attrs: [], kids });
const slot = (...kids) => ({ tag: "div", attrs: [["id", "A_", "A_"]], kids });
const host = '<p class="plain">the page\'s own</p>';
const box = () => document.getElementById("container");
const later = milliseconds => new Promise(resolve => setTimeout(resolve, milliseconds));

// A row about a tree, which each way shows or not.
function treeRow(name, ...kids) {
    const trees = [slot(...kids), "after"];
    const look = () => {
        if (Trees.textLeaves(box(), trees)) return "text leaves the slot";
        return Trees.differs(box(), trees, false) ? "another tree" : "as printed";
    };
    return { name, page: Trees.printedPage(trees), look, wanted: "as printed" };
}

const row = (name, inside, look, wanted, after = "") =>
    ({ name, page: `<body>${host}<div id="A_">${inside}</div>${after}</body>`, look, wanted });

// Rows whose look is told by the requests alone.
const fetchRow = (name, inside) => row(name, inside, () => later(150), "nothing is fetched");

async function clicked() {
    const before = location.href;
    box().querySelector("a").click();
    await later(50);
    return Trees.ran() > 0 ? "a script runs" : location.href !== before ? `leads to ${location.hash}` : "leads nowhere";
}

// What stands at the page's own title and text.
function covered() {
    const isOwn = node => {
        const { left, top, width, height } = node.getBoundingClientRect();
        return document.elementFromPoint(left + width / 2, top + height / 2) === node;
    };
    const isFree = isOwn(document.getElementById("title")) && isOwn(box().querySelector(".plain"));
    return isFree ? "covers nothing" : "covers the page";
}

let before;

function changed() {
    const names = Trees.documentChanges(before);
    return names.length > 0 ? `\`document.${names}\` is another` : "nothing changes";
}

function colour() {
    const isOwn = getComputedStyle(box().querySelector("#A_ .plain")).color === "rgb(0, 128, 0)";
    return isOwn ? "the page's rule holds" : "beats the page's `!important`";
}

function radios() {
    const [first, second] = box().querySelectorAll("input");
    first.click();
    second.click();
    return first.checked && second.checked ? "two groups" : "one group";
}

const rows = [
    treeRow("`button` in `button`", el("button", el("div", el("button", "a")), "b"), "c"),
    treeRow("`li` round a `div` with another", el("ul", el("li", "a", el("div", el("li", "b")), "c"))),
    treeRow("`dd` round a `div` with a `dt`", el("dl", el("dd", "a", el("div", el("dt", "b")), "c"))),
    treeRow("headings in headings", el("h1", "a", el("h2", "b"), "c")),
    treeRow("`a` in `a`", el("a", "a", el("div", el("a", "b")), "c")),
    treeRow("elements in a `textarea`", el("textarea", "a", el("b", "c"))),
    treeRow("elements in an `option`", el("select", el("option", el("div", el("select", "a")), "b"))),
    treeRow("`tr` in a `div`", el("div", el("tr", el("td", "a")))),
    treeRow("text in a `table`", el("table", "a", el("tr", el("td", "b")))),
    treeRow("`div` in a `table`", el("table", el("tbody", el("div", "a")))),
    treeRow("`p` round a `div`", el("p", "a", el("div", "b"), "c")),
    treeRow("a `pre` that begins with a line feed", el("pre", "\na")),
    treeRow("200 elements, one in another", Array.from({ length: 200 }).reduce(kid => el("span", kid), "a")),
    fetchRow("`cursor: image-set('x.png' 1x), auto`", "<p style=\"cursor: image-set('x.png' 1x), auto\">a</p>"),
    fetchRow("`src` of an `img`", '<img src="http://a.example/a.png">'),
    fetchRow("`type=\"image\"` with a `src`", '<input type="image" src="a.png">'),
    row("`position: fixed !important`, `z-index`",
        '<p style="position: fixed !important; top: 0; left: 0; width: 100%; height: 100%; z-index: 9999">a</p>',
        covered, "covers nothing"),
    row("negative margins",
        '<p style="margin: -400px 0 0 -400px; width: 9999px; height: 9999px; position: relative">a</p>',
        covered, "covers nothing"),
    row("`color: red !important`", '<b class="plain" style="color: red !important">a</b>', colour,
        "the page's rule holds"),
    row("`name=\"cookie\"` of an `img`", '<img name="cookie">', changed, "nothing changes"),
    row("`name=\"getElementById\"` of an `img`", '<img name="getElementById">', changed, "nothing changes"),
    row("radio buttons of one `name` in two slots", '<input type="radio" name="a">', radios, "two groups",
        '<div id="B_"><input type="radio" name="a"></div>'),
    row("`href=\"java⇥script:run()\"`, a click", '<a href="java\tscript:run()">a</a>', clicked, "leads nowhere"),
    row("`href=\"#B_b\"`, a click", '<a href="#B_b">a</a>', clicked, "leads nowhere",
        '<div id="B_"><p id="B_b">b</p></div>'),
    row("`href=\"#A_a\"`, a click", '<a id="A_a" href="#A_a">a</a>', clicked, "leads to #A_a"),
    row("`type=\"password\"`", '<input type="password">', () => `a field of type ${box().querySelector("input").type}`,
        "a field of type text"),
];

const ways = {
    innerHTML: page => { box().innerHTML = page.replace(/^<body>|<\/body>$/g, ""); },
    viewer: page => { AdhostView.render(box(), page); },
};

// What one way does with a row; nothing where the requests tell it.
async function shown(number, way) {
    before = Trees.documentState();
    ways[way](rows[number].page);
    return await rows[number].look();
}

return { rows, shown };
})();

/* What else the viewer is to do: each answers with what is wrong, or with nothing. */
const Checks = (() => {
const box = () => document.getElementById("container");
const page = inside => `<body><div id="A_">${inside}</div></body>`;
const shown = (inside, options) => {
    AdhostView.render(box(), page(inside), options);
    return box().querySelector("#A_");
};

// Texts that adhost never prints: refused, and the page stays.
function refusals() {
    const whole = ["", "a", "<body>", "<body></body>a", "<p></p>", "<body><body></body></body>", "<BODY></BODY>"];
    const inside = ["<script></script>", "<style></style>", "<svg></svg>", "<iframe></iframe>", "<form></form>",
        "<x></x>", "<P></P>", "<p>", "</p>", "<p></b>", "<p/>", "<p/></p>", "<br></br>", "<p title></p>",
        "<p title=a></p>", '<p title="<"></p>', '<p title="a" title="b"></p>', '<p title="a"class="b"></p>',
        '<p TITLE="a"></p>', "< p></p>", "<p", "<!-- a -->", "<!doctype html>", "<?a?>", "<![CDATA[a]]>", "&", "&nope;",
        "&#0;", "&#xD800;", "&#55296;", "&#1114112;", "&#00000065;", '<p title="&"></p>',
        `${"<b>".repeat(202)}${"</b>".repeat(202)}`];
    const view = AdhostView.render(box(), page("stays"));
    const before = box().innerHTML;
    const isRefused = text => {
        try {
            view.update(text);
            return false;
        } catch (error) {
            return error instanceof SyntaxError && box().innerHTML === before;
        }
    };
    return [...whole, ...inside.map(text => `<body>${text}</body>`)].filter(text => !isRefused(text));
}

// Spellings that the grammar has and the printed text has not.
function spellings() {
    const root = shown("<p \n title='a'></p  ><br/><input checked disabled /><b\t>&nbsp;&#65;&#128512;</b>");
    const [p, br, input, b] = root.children;
    const isRead = p.title === "a" && br.localName === "br" && input.checked && input.disabled
        && b.textContent === "\u00a0A😀";
    return isRead ? [] : [root.outerHTML];
}

// What options allow, and no more.
function options() {
    const inside = '<a href="https://a.example/x">a</a><a href="https://b.example">b</a>'
        + '<a href="blob:https://a.example/x">c</a><input type="password">'
        + '<p style="position: fixed; font-family: Secret, Inter">d</p>';
    const allowed = { target: "_self", types: ["password"], fonts: ["Inter"], words: ["fixed"] };
    const root = shown(inside, { links: ["https://a.example"], ...allowed });
    const [first, second, third, input, p] = root.children;
    const wrong = [];
    if (first.href !== "https://a.example/x" || first.target !== "_self") wrong.push("the allowed link");
    if (second.hasAttribute("href") || third.hasAttribute("href")) wrong.push("another origin's link");
    if (input.type !== "password") wrong.push("the allowed type");
    if (p.style.cssText !== "position: fixed; font-family: inter;") wrong.push(`the words: ${p.style.cssText}`);
    const [far, near] = shown('<a href="x">a</a><a href=" #A_b">b</a>', { base: "https://c.example/y/z" }).children;
    if (far.href !== "https://c.example/y/x" || near.href !== `${location.href}#A_b`) wrong.push("the base");
    return wrong;
}

// A picture that an option allows is fetched: the log of requests sees it.
function picture() {
    const root = shown('<img src="cup.png">', { pictures: [location.origin] });
    return root.firstChild.src === `${new URL("cup.png", location.href)}` ? [] : ["the allowed picture"];
}

function misuse() {
    const isRefused = (container, options) => {
        try {
            AdhostView.render(container, page(""), options);
            return false;
        } catch (error) {
            return error instanceof TypeError;
        }
    };
    const form = document.createElement("form");
    return isRefused(form) && isRefused(box(), { link: [] }) ? [] : ["a container in a form, or an option of no name"];
}

// The value that a field has by itself, or that was typed, never becomes an attribute.
function ownValues() {
    const view = AdhostView.render(box(), page('<input type="checkbox" value="a"><input type="text">'));
    box().querySelector("[type=text]").value = "typed";
    view.update(page('<input type="checkbox"><input type="checkbox">'));
    return box().querySelector("[value]") ? [box().innerHTML] : [];
}

// An update leaves alone what a reader did, until the page says otherwise.
const fields = (first, value, ticked, more, text) => page(`${first}<input id="A_t" type="text"${value}>`
    + `<input id="A_c" type="checkbox"${ticked}><textarea id="A_a">${text}</textarea>`
    + `<ul><li>a</li>${more}<li>z</li></ul>`);
let view, nodes;

function typing() {
    view = AdhostView.render(box(), fields("", "", "", "", "old"));
    nodes = [...box().querySelectorAll("*")];
    const [text, tick, area] = box().querySelectorAll("input, textarea");
    tick.click();
    area.value = "typed";
    text.focus();
}

function updates() {
    const wrong = [], [text, tick, area] = box().querySelectorAll("input, textarea");
    const holds = (fact, what) => { if (!fact) wrong.push(what); };
    holds(text.value === "tea", `typed ${text.value}`);
    text.setSelectionRange(1, 2);
    view.update(fields("<p>new</p>", ' value="tea" title="b"', "", "<li>m</li>", "old"));
    holds(nodes.every(node => node.isConnected), "a node is gone");
    holds(document.activeElement === text && text.selectionStart === 1 && text.selectionEnd === 2, "the caret moved");
    holds(tick.checked && area.value === "typed" && text.title === "b", "what was done is gone");
    holds(box().querySelector("ul").textContent === "amz", "the list");
    view.update(fields("", ' value="cup"', ' checked="checked"', "", "new"));
    holds(text.value === "cup" && tick.checked && area.value === "new", "the page's own values");
    view.update(fields("", "", "", "", "new"));
    holds(text.value === "" && !tick.checked && nodes.every(node => node.isConnected), "the values that are gone");
    holds(document.activeElement === text, "the focus");
    return wrong;
}

return { refusals, spellings, options, picture, misuse, ownValues, typing, updates };
})();
