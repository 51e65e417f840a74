// Tests adhost-view.js in a headless Chromium: `node run.js [PAGES [PICTURE]]`, with the number of random pages and a
// file for a picture of the six gadgets. The status is 0 where all holds.
"use strict";
const fs = require("node:fs");
const http = require("node:http");
const path = require("node:path");
const { launch } = require("./browser.js");

const PAGES = Number(process.argv[2] ?? 5000), STEP = 250;
const TYPES = { ".html": "text/html", ".js": "text/javascript", ".css": "text/css", ".jsonl": "text/plain" };
const STRICT = "default-src 'none'; script-src 'self'; style-src 'self'; require-trusted-types-for 'script'";
const top = path.join(__dirname, "../..");
const wrong = [];

// The files of the repository; an address that ends in `?strict` under a strict policy of contents.
const server = http.createServer((request, response) => {
    const { pathname, search } = new URL(request.url, "http://a");
    const type = TYPES[path.extname(pathname)] ?? "text/plain";
    const policy = search === "?strict" ? { "content-security-policy": STRICT } : {};
    fs.readFile(path.join(top, pathname), (error, bytes) => {
        response.writeHead(error ? 404 : 200, { "content-type": `${type}; charset=utf-8`, ...policy });
        response.end(error ? "" : bytes);
    });
});

function expect(holds, what) {
    if (!holds) wrong.push(what);
}

// The table of README.md: what each way makes of each row.
async function table(tab, page) {
    const lines = ["| Accepted and printed | By `innerHTML` | By the viewer |", "|---|---|---|"];
    await tab.open(page);
    const rows = await tab.evaluate("Rows.rows.map(({ name, wanted }) => ({ name, wanted }))");
    for (let i = 0; i < rows.length; i++) {
        const cells = [];
        for (const way of ["innerHTML", "viewer"]) {
            await tab.open(page);
            const look = await tab.evaluate(`Rows.shown(${i}, "${way}")`);
            cells.push(look ?? (tab.requests.length > 0 ? "fetched" : "nothing is fetched"));
        }
        expect(cells[1] === rows[i].wanted, `${rows[i].name}: ${cells[1]}`);
        lines.push(`| ${[rows[i].name, ...cells].join(" | ")} |`);
    }
    return lines.join("\n");
}

async function randomPages(tab, page) {
    const sum = { nodes: 0, parserDiffers: 0, parserLeaves: 0 };
    await tab.open(page);
    for (let seed = 0; seed < PAGES; seed += STEP) {
        const answer = await tab.evaluate(`Trees.random(${seed}, ${Math.min(STEP, PAGES - seed)})`);
        for (const name in sum) sum[name] += answer[name];
        answer.wrong.slice(0, 5).forEach(text => expect(false, `random page ${text}`));
    }
    expect(await tab.evaluate("Trees.ran()") === 0, "a script ran");
    expect(tab.requests.length === 0, `random pages fetched ${tab.requests.slice(0, 5)}`);
    return sum;
}

async function checks(tab, page) {
    await tab.open(page);
    for (const name of ["refusals", "spellings", "options", "misuse", "ownValues"])
        for (const what of await tab.evaluate(`Checks.${name}()`)) expect(false, `${name}: ${what}`);
    await tab.evaluate("Checks.typing()");
    await tab.send("Input.insertText", { text: "tea" });
    for (const what of await tab.evaluate("Checks.updates()")) expect(false, `update: ${what}`);
    expect(tab.requests.length === 0, `the checks fetched ${tab.requests}`);
    if (page.endsWith("?strict")) return;
    for (const what of await tab.evaluate("Checks.picture()")) expect(false, what);
    await new Promise(resolve => setTimeout(resolve, 150));
    expect(tab.requests.length === 1, "an allowed picture is not seen in the log");
}

// The page of the six gadgets, as example.html shows it.
async function gadgets(tab, page, picture) {
    await tab.open(page);
    const { root } = await tab.send("DOM.getDocument");
    const { nodeId } = await tab.send("DOM.querySelector", { nodeId: root.nodeId, selector: "#report" });
    await tab.send("DOM.setFileInputFiles", { nodeId, files: [path.join(top, "examples/gadgets/replay.jsonl")] });
    await new Promise(resolve => setTimeout(resolve, 500));
    const boxes = "[...document.querySelectorAll('.adhost-slot')]";
    const slots = await tab.evaluate(`${boxes}.map(box => box.dataset.slot).join(" ")`);
    expect(slots === "AD_ CLOCK_ TODO_ CALC_ FORM_ TIP_", `the gadgets: ${slots}`);
    expect(tab.requests.length === 0, `the gadgets fetched ${tab.requests}`);
    if (!picture) return;
    const { data } = await tab.send("Page.captureScreenshot", { format: "png", captureBeyondViewport: true });
    fs.writeFileSync(picture, Buffer.from(data, "base64"));
}

async function main() {
    await new Promise(resolve => server.listen(0, "127.0.0.1", resolve));
    const page = `http://127.0.0.1:${server.address().port}/embed/test/page.html`;
    const browser = launch();
    const tab = await browser.tab();
    await checks(tab, page);
    await checks(tab, `${page}?strict`);
    const sum = await randomPages(tab, page);
    const rows = await table(tab, page);
    await gadgets(tab, new URL("../example.html", page).href, process.argv[3]);
    await browser.close();
    server.close();
    console.log(`${PAGES} random pages, each with two updates; ${sum.nodes} elements`);
    console.log(`The browser's parser: ${sum.parserDiffers} have another tree, ${sum.parserLeaves} text out of a slot`);
    console.log(`\n${rows}`);
    expect(fs.readFileSync(path.join(__dirname, "../README.md"), "utf8").includes(rows), "README.md has another table");
    wrong.forEach(text => console.error(`wrong: ${text}`));
    process.exitCode = wrong.length > 0 ? 1 : 0;
}

main();
