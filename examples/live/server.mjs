// Serves live pages: `node examples/live/server.mjs [PORT [PROGRAM]]`. For each visitor it runs a program `live`, for
// as long as the page stands open. docs/LIVE.md explains it.
import { spawn } from "node:child_process";
import { randomUUID } from "node:crypto";
import { existsSync, readdirSync, readFileSync } from "node:fs";
import http from "node:http";
import { basename, join, resolve } from "node:path";

const VISITORS = 50, IDLE = 300_000, TICK = 1_000; // milliseconds
const SECONDS = 60, KILOBYTES = 400_000; // of processor time and of address space, by the system, for each program
const WAITING = 16, BODY = 400_000, UNREAD = 8_000_000; // items without an answer; bytes of an item; bytes not sent yet
const EVENTS = ["click", "change"];

// The folders of the pages' m.json, and what their host may put in a slot: no text of a visitor becomes a path.
const PAGES = new Map([
    ["gadgets", [["TIP_", "../live/loops.html"], ["TIP_", "tip.html"]]],
    ["cookbook", []],
    ["market", [["TOTAL_", "total-discount.html"], ["SPY_", "shop.html"]]],
]);
const top = join(import.meta.dirname, "../..");
const file = (path, type) => ({ bytes: readFileSync(join(top, path)), type: `text/${type}; charset=utf-8` });
const page = file("examples/live/page.html", "html");
const FILES = new Map([
    ["/", file("examples/live/index.html", "html")],
    ["/page.css", file("examples/live/page.css", "css")],
    ["/page.js", file("examples/live/page.js", "javascript")],
    ["/adhost-view.js", file("embed/adhost-view.js", "javascript")],
    ...[...PAGES.keys()].map(name => [`/${name}`, page]),
]);
const HEADERS = {
    "cache-control": "no-store", "x-content-type-options": "nosniff", "x-dns-prefetch-control": "off",
    "content-security-policy": "default-src 'none'; script-src 'self'; style-src 'self'; connect-src 'self'; "
        + "img-src data:; base-uri 'none'; form-action 'none'; frame-ancestors 'none'; "
        + "require-trusted-types-for 'script'",
};

// The proved program, or else one that was built without its proof.
function built() {
    const out = join(top, "crates/live/out"), names = existsSync(out) ? readdirSync(out) : [];
    const name = names.find(name => name === "live") ?? names.find(name => name.startsWith("unproved-"));
    if (name) return join(out, name);
    console.error("there is no program `live` yet; docs/LIVE.md says how it is built");
    process.exit(1);
}

const [port = "8080", program = built()] = process.argv.slice(2);
const visitors = new Map();

// A program that was built without its proof has checks in it that want more addresses than any limit leaves.
const unproved = basename(program).startsWith("unproved-");
const limits = `ulimit -t ${SECONDS} && ulimit -v ${unproved ? "unlimited" : KILOBYTES}`;
if (unproved) console.error("this program was built without its proof, and runs without a limit of memory");

// A visitor: the program begins, and each line that it writes is sent on.
function begin(name, response) {
    const id = randomUUID(), words = ["-c", `${limits} && exec "$0" m.json 1000`, resolve(program)];
    const child = spawn("sh", words, { cwd: join(top, "examples", name) });
    const visitor = { child, swaps: PAGES.get(name), waiting: 0, seen: Date.now(), ticked: Date.now() };
    visitors.set(id, visitor);
    response.writeHead(200, { ...HEADERS, "content-type": "text/event-stream" });
    const say = line => {
        response.write(`data: ${line}\n\n`);
        if (/^{"(item|refused)"/.test(line)) visitor.waiting -= 1;
        if (response.writableLength > UNREAD) child.kill("SIGKILL");
    };
    say(JSON.stringify({ visitor: id, events: EVENTS, swaps: visitor.swaps }));
    let rest = "";
    child.stdout.setEncoding("utf8").on("data", text => {
        const lines = (rest + text).split("\n");
        rest = lines.pop();
        lines.forEach(say);
    });
    child.stderr.resume();
    for (const it of [child, child.stdin]) it.on("error", () => { });
    child.on("close", (status, signal) => {
        visitors.delete(id);
        response.end(`data: ${JSON.stringify({ ended: status ?? signal })}\n\n`);
    });
    response.on("close", () => child.kill("SIGKILL"));
}

// Hands an item to a visitor's program, where not too many wait. Gives the status of the request.
function give(visitor, item) {
    if (visitor.waiting >= WAITING) return 429;
    visitor.waiting += 1;
    visitor.child.stdin.write(`${JSON.stringify(item)}\n`);
    return 204;
}

// What a visitor may ask for: an event of a listed type, or a swap of the page by its number.
async function asked(request) {
    try {
        let text = "";
        for await (const part of request.setEncoding("utf8")) if (text.length <= BODY) text += part;
        if (text.length > BODY) return 413;
        const visitor = visitors.get(request.url.slice("/item/".length));
        const { to, event, path, value, swap } = JSON.parse(text);
        if (!visitor) return 404;
        visitor.seen = Date.now();
        if (EVENTS.includes(event)) return give(visitor, { to, event, path, value });
        const [slot, file] = visitor.swaps[Number.isInteger(swap) ? swap : -1];
        return give(visitor, { swap: slot, file });
    } catch {
        return 400;
    }
}

// Time goes by for all. Where nobody did anything for long the input of the program is ended, and so the program.
setInterval(() => {
    const now = Date.now();
    for (const visitor of visitors.values()) {
        if (now - visitor.seen > IDLE) visitor.child.stdin.end();
        else if (visitor.waiting === 0) {
            give(visitor, { advance: Math.min(now - visitor.ticked, 60_000) });
            visitor.ticked = now;
        }
    }
}, TICK);

const server = http.createServer(async (request, response) => {
    const { method, url } = request, [, live, name] = url.match(/^\/(live)\/(.*)$/) ?? [];
    const known = method === "GET" ? FILES.get(url) : undefined;
    if (method === "POST" && url.startsWith("/item/")) response.writeHead(await asked(request), HEADERS).end();
    else if (known) response.writeHead(200, { ...HEADERS, "content-type": known.type }).end(known.bytes);
    else if (!live || !PAGES.has(name) || method !== "GET") response.writeHead(404, HEADERS).end();
    else if (visitors.size >= VISITORS) response.writeHead(503, HEADERS).end();
    else begin(name, response);
});
server.listen(Number(port), "127.0.0.1", () => console.log(`http://127.0.0.1:${server.address().port}/`));
