// Tests the live pages in a headless Chromium: `node examples/live/test.mjs [PROGRAM]`. Status 0 where all holds.
import { spawn } from "node:child_process";
import { readdirSync, readFileSync } from "node:fs";
import { basename, join } from "node:path";
import browsers from "../../embed/test/browser.js";

const VISITORS = 50, PATIENCE = 60_000; // milliseconds
const here = import.meta.dirname, examples = join(here, "..");
const FOLDERS = ["gadgets", "cookbook", "market", "live"];
const OWN = ["adhost-view.js", "page.js"];
const wrong = [];
const expect = (holds, what) => { if (!holds) wrong.push(what); };
const later = milliseconds => new Promise(resolve => setTimeout(resolve, milliseconds));

// The server on a port of its own.
const server = spawn("node", [join(here, "server.mjs"), "0", ...process.argv.slice(2)],
    { stdio: ["ignore", "pipe", "inherit"] });
server.on("exit", status => { if (status !== null) process.exit(1); });
process.on("exit", () => server.kill());
const site = await new Promise(resolve => server.stdout.once("data", text => resolve(`${text}`.trim())));
const browser = browsers.launch(), tab = await browser.tab();

// All that comes to the browser: the addresses, the messages, the scripts that it reads.
const requests = new Map(), messages = [], scripts = new Map();
browser.listen((method, params) => {
    if (method === "Network.requestWillBeSent") requests.set(params.requestId, params.request.url);
    if (method === "Network.eventSourceMessageReceived") messages.push(params.data);
    if (method === "Debugger.scriptParsed") scripts.set(params.scriptId, params.url);
});
await tab.send("Debugger.enable");
const bodies = [];

// What was fetched is kept before the next page is opened.
async function keep() {
    for (const [requestId, url] of requests) {
        if (url.includes("/item/") || url.includes("/live/") || url.startsWith("data:")) continue;
        bodies.push([url, (await tab.send("Network.getResponseBody", { requestId })).body]);
    }
    for (const [scriptId, url] of scripts) {
        const { scriptSource } = await tab.send("Debugger.getScriptSource", { scriptId });
        if (url !== "") bodies.push([url, scriptSource]);
    }
    const inline = await tab.evaluate("[...document.scripts].map(script => script.src + script.text).join(' ')");
    expect(inline === OWN.map(name => site + name).join(" "), `document.scripts: ${inline}`);
    requests.clear();
    scripts.clear();
}

async function open(name) {
    await tab.open(site + name);
    await tab.evaluate("this.stays = true");
}

async function until(expression, what) {
    const end = Date.now() + PATIENCE;
    while (!await tab.evaluate(expression)) {
        if (Date.now() > end) return expect(false, `${what}: ${await tab.evaluate("document.body.innerText")}`);
        await later(20);
    }
}

const shows = (selector, text) => until(`document.querySelector("${selector}")?.textContent === "${text}"`,
    `${selector} shows ${text}`);
const state = (slot, text) =>
    until(`this.${slot}?.closest("section").querySelector(".state").textContent === "${text}"`, `${slot} is ${text}`);

// A click by the mouse, and what is typed by the keyboard.
async function click(selector) {
    await until(`document.querySelector("${selector}")`, `there is ${selector}`);
    const { x, y } = await tab.evaluate(`(() => {
        const node = document.querySelector("${selector}");
        node.scrollIntoView({ block: "center", behavior: "instant" });
        const { left, top, width, height } = node.getBoundingClientRect();
        return { x: left + width / 2, y: top + height / 2 };
    })()`);
    for (const type of ["mousePressed", "mouseReleased"])
        await tab.send("Input.dispatchMouseEvent", { type, x, y, button: "left", clickCount: 1 });
}

async function type(selector, text) {
    await click(selector);
    await tab.evaluate(`document.querySelector("${selector}").select()`);
    await tab.send("Input.insertText", { text });
    for (const type of ["keyDown", "keyUp"])
        await tab.send("Input.dispatchKeyEvent", { type, key: "Enter", windowsVirtualKeyCode: 13, text: "\r" });
}

const swap = number => click(`#host button:nth-of-type(${number})`);

async function gadgets() {
    await open("gadgets");
    await type("#CALC_in", "2 + 3 * 4");
    await shows("#CALC_out", "= 14");
    await type("#TODO_new", "buy tea");
    await shows("#TODO_left", "1 thing left");
    await click("#TODO_list li");
    await shows("#TODO_left", "nothing left");
    await until("CLOCK_face.textContent > '00:00:01'", "the clock goes on");
    await type("#FORM_name", "Ann");
    await type("#FORM_mail", "ann");
    await click("#FORM_terms");
    await until("!FORM_send.disabled", "the form can be sent");
    await click("#FORM_send");
    await until("FORM_faults.children.length === 2", "the form's faults");
    // A swap under the eyes of the page, and then a widget that loops.
    await swap(1);
    await shows("#TIP_said", "A widget that loops, if you let it.");
    await click("#TIP_loop");
    await state("TIP_", "stopped: fuel");
    await shows("#TIP_said", "Nobody sees what comes behind this.");
    await type("#CALC_in", "3 * 5");
    await shows("#CALC_out", "= 15");
    await tab.evaluate("this.before = CLOCK_face.textContent");
    await until("CLOCK_face.textContent > before", "the clock goes on beside it");
    await swap(2);
    await until("TIP_.querySelector('em')", "another swap");
    await state("TIP_", "");
}

async function cookbook() {
    await open("cookbook");
    for (const [row, column] of [[1, 1], [2, 1], [1, 2], [2, 2], [1, 3]])
        await click(`#TTT_board tr:nth-child(${row}) td:nth-child(${column})`);
    await shows("#TTT_say", "X wins");
    await click("#TTT_again");
    await shows("#TTT_say", "X to move");
}

async function market() {
    await open("market");
    await shows("#TOTAL_sum", "nothing");
    await click("#SHOP_goods li:nth-child(1)");
    await shows("#TOTAL_sum", "2.50");
    await click("#SHOP_goods li:nth-child(2)");
    await shows("#TOTAL_sum", "14.50");
    await swap(1);
    await shows("#TOTAL_sum", "nothing");
    await click("#SHOP_goods li:nth-child(3)");
    await shows("#TOTAL_sum", "13.73");
    await shows("#SPY_out", "nothing heard");
    await swap(2);
    await state("SPY_", "refused: M03");
    await until("SPY_.childNodes.length === 0", "a refused slot is empty");
    await click("#SHOP_goods li:nth-child(3)");
    await until("CART_list.children.length === 4", "the cart goes on");
}

// No line of a widget's or a library's script is in anything that came to the browser.
function secrets() {
    const lines = new Set();
    const names = FOLDERS.flatMap(folder => readdirSync(join(examples, folder)).map(name => join(folder, name)));
    for (const name of names.filter(name => /\.(html|js)$/.test(name) && !OWN.includes(basename(name)))) {
        const text = readFileSync(join(examples, name), "utf8");
        const inside = [...text.matchAll(/<script>([^]*?)<\/script>/g)].map(found => found[1]).join("\n");
        const script = name.endsWith(".js") ? text : inside;
        for (const line of script.split("\n")) if (line.trim().length > 20) lines.add(line.trim());
    }
    const texts = messages.map(data => {
        const message = JSON.parse(data), roots = [message, ...message.slots ?? []].map(({ root }) => root ?? "");
        return ["a message", data + roots.join("\n")];
    });
    expect(lines.size > 200 && messages.length > 30, `${lines.size} lines, ${messages.length} messages`);
    for (const [where, text] of [...bodies, ...texts]) {
        const found = [...lines, "ADSAFE"].find(line => text.includes(line));
        expect(!found, `${where} has a script's line: ${found}`);
    }
    const files = [...new Set(bodies.map(([url]) => url.slice(site.length)))].sort().join(" ");
    expect(files === "adhost-view.js cookbook gadgets market page.css page.js", `the browser fetched ${files}`);
}

// What a visitor by himself may not do.
async function requestsRefused() {
    const stop = new AbortController();
    const stream = await fetch(`${site}live/market`, { signal: stop.signal });
    const text = new TextDecoder().decode((await stream.body.getReader().read()).value);
    const { visitor } = JSON.parse(text.slice("data: ".length, text.indexOf("\n")));
    const status = async (id, body) => (await fetch(`${site}item/${id}`, { method: "POST", body })).status;
    const items = ['{"swap":"TOTAL_","file":"../../README.md"}', '{"advance":1000}', '{"report":true}', "null", "{",
        '{"to":"TOTAL_","event":"post","path":[],"value":"SHOP_ 1"}', '{"swap":"length"}', '{"swap":-1}', '{"swap":9}'];
    for (const item of items) expect(await status(visitor, item) === 400, `taken: ${item}`);
    expect(await status(visitor, " ".repeat(500_000)) === 413, "a long item is taken");
    expect(await status("nobody", '{"swap":0}') === 404, "an item of nobody is taken");
    expect((await fetch(`${site}live/constructor`)).status === 404, "a page of no name");
    stop.abort();
}

const programs = () => readFileSync(`/proc/${server.pid}/task/${server.pid}/children`, "utf8").trim().split(" ")
    .filter(Boolean);

// Each of fifty visitors has a program with limits of its own; one more is sent away, and all end with their pages.
async function crowd() {
    const stop = new AbortController();
    const live = () => fetch(`${site}live/gadgets`, { signal: stop.signal });
    await tab.open("about:blank");
    for (const end = Date.now() + PATIENCE; programs().length > 0 && Date.now() < end;) await later(50);
    expect(programs().length === 0, "a program is left without a page");
    const streams = await Promise.all(Array.from({ length: VISITORS }, live));
    await Promise.all(streams.map(({ body }) => body.getReader().read()));
    expect((await live()).status === 503, "a visitor too many");
    const found = programs();
    expect(found.length === VISITORS, `${found.length} programs`);
    const limits = readFileSync(`/proc/${found[0]}/limits`, "utf8");
    expect(/Max cpu time +60 /.test(limits) && /Max address space +(409600000|unlimited) /.test(limits), limits);
    stop.abort();
    for (const end = Date.now() + PATIENCE; programs().length > 0 && Date.now() < end;) await later(50);
    expect(programs().length === 0, "a program outlives its page");
}

for (const page of [gadgets, cookbook, market]) {
    await page();
    expect(await tab.evaluate("stays"), "the page was loaded anew");
    await keep();
}
secrets();
await requestsRefused();
await crowd();
await browser.close();
server.kill();
wrong.forEach(text => console.error(`wrong: ${text}`));
console.log(`${messages.length} messages came to the browser, ${wrong.length} things are wrong`);
process.exitCode = wrong.length === 0 ? 0 : 1;
