// Shows a live page: the roots that the server sends, by the viewer; what is done in them goes back as items.
"use strict";
(() => {

const byId = id => document.getElementById(id);
const say = text => { byId("note").textContent = text; };
const slots = new Map();
let visitor, events, posting;

// One request after the other, so that items come in the order in which they were done.
function post(item) {
    const request = () => fetch(`item/${visitor}`, { method: "POST", body: JSON.stringify(item) });
    posting = posting.then(request)
        .then(({ ok, status }) => say(ok ? "" : `not taken: status ${status}`))
        .catch(() => say("the server is gone"));
}

// The positions of a node and of those above it, from the root down.
function pathTo(node, root) {
    const path = [];
    for (; node !== root; node = node.parentNode) path.unshift([...node.parentNode.childNodes].indexOf(node));
    return path;
}

const isTyped = node => node.matches("input, select, textarea") && !["checkbox", "radio"].includes(node.type);

function happened(slot, { type, target }) {
    const root = byId(slot);
    if (!root.contains(target)) return;
    const value = type === "change" && isTyped(target) ? target.value : undefined;
    post({ to: slot, event: type, path: pathTo(target, root), value });
}

function place(name) {
    const section = document.createElement("section"), state = document.createElement("small");
    const box = document.createElement("div");
    state.className = "state";
    section.append(state, box);
    byId("slots").append(section);
    for (const type of events) box.addEventListener(type, event => happened(name, event));
    slots.set(name, { section, state, view: AdhostView.render(box, "<body></body>") });
}

// The line of a slot tells its state; the root is what it shows.
function show({ line, root }) {
    if (!slots.has(line.widget)) place(line.widget);
    const { section, state, view } = slots.get(line.widget);
    view.update(`<body>${root}</body>`);
    const said = line.refused ? `refused: ${line.refused}` : line.state === "live" ? "" : `stopped: ${line.state}`;
    state.textContent = said;
    section.className = said ? "stopped" : "";
}

function begin(message) {
    ({ visitor, events } = message);
    posting = Promise.resolve();
    slots.clear();
    for (const id of ["slots", "host", "note"]) byId(id).replaceChildren();
    message.swaps.forEach(([slot, file], swap) => {
        const button = document.createElement("button");
        button.textContent = `put ${file} in ${slot}`;
        button.addEventListener("click", () => post({ swap }));
        byId("host").append(button);
    });
}

const source = new EventSource(`live${location.pathname}`);
source.addEventListener("message", ({ data }) => {
    const message = JSON.parse(data);
    if ("visitor" in message) begin(message);
    if ("line" in message) show(message);
    if ("item" in message) message.slots.forEach(show);
    if ("refused" in message) say(`refused: ${message.refused}`);
    if ("ended" in message) {
        source.close();
        say(`The page came to its end (${message.ended}). Load it again for a new one.`);
    }
});
source.addEventListener("error", () => {
    if (source.readyState === EventSource.CLOSED) say("There is no room for one more visitor now.");
});
})();
