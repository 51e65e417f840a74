// A headless Chromium, driven by the DevTools protocol over two pipes. `CHROMIUM` names the program. A `listener` gets
// each event of the protocol, its method and its parameters.
"use strict";
const { spawn } = require("node:child_process");
const fs = require("node:fs");
const os = require("node:os");
const path = require("node:path");

function launch() {
    const folder = fs.mkdtempSync(path.join(os.tmpdir(), "adhost-view-"));
    const words = [process.env.CHROMIUM ?? "chromium", "--headless", "--disable-gpu", "--hide-scrollbars",
        "--no-first-run", "--disable-background-networking", "--remote-debugging-pipe", `--user-data-dir=${folder}`,
        "--host-resolver-rules=MAP * ~NOTFOUND, EXCLUDE 127.0.0.1"];
    if (process.getuid() === 0) words.push("--no-sandbox");
    const child = spawn("nice", ["-n", "5", ...words], { stdio: ["ignore", "ignore", "ignore", "pipe", "pipe"] });
    const [, , , input, output] = child.stdio;
    const waiting = new Map(), listeners = [];
    let number = 0, rest = "";

    output.setEncoding("utf8").on("data", data => {
        const messages = (rest + data).split("\0");
        rest = messages.pop();
        for (const text of messages) {
            const { id, result, error, method, params } = JSON.parse(text);
            if (id === undefined) listeners.forEach(listener => listener(method, params));
            else if (error) waiting.get(id).reject(new Error(error.message));
            else waiting.get(id).resolve(result);
        }
    });
    child.on("error", error => { throw error; });

    function send(method, params = {}, sessionId = undefined) {
        return new Promise((resolve, reject) => {
            waiting.set(++number, { resolve, reject });
            input.write(JSON.stringify({ id: number, method, params, sessionId }) + "\0");
        });
    }

    // A tab: `send`, `evaluate`, `open`, and `requests`, the addresses that were asked for since the last `open`.
    async function tab() {
        const { targetId } = await send("Target.createTarget", { url: "about:blank" });
        const { sessionId } = await send("Target.attachToTarget", { targetId, flatten: true });
        const here = { requests: [], send: (method, params) => send(method, params, sessionId) };
        let loaded;
        listeners.push((method, params) => {
            // The browser's own pictures, as in a field for a date, are of this kind.
            const isOwn = params.request?.url.startsWith("data:image/svg+xml");
            if (method === "Network.requestWillBeSent" && !isOwn) here.requests.push(params.request.url);
            if (method === "Page.loadEventFired") loaded?.();
        });
        await Promise.all(["Network.enable", "Page.enable", "Runtime.enable"].map(method => here.send(method)));
        here.open = async url => {
            const load = new Promise(resolve => { loaded = resolve; });
            await here.send("Page.navigate", { url });
            await load;
            here.requests.length = 0;
        };
        here.evaluate = async expression => {
            const words = { expression, awaitPromise: true, returnByValue: true };
            const { result, exceptionDetails: fault } = await here.send("Runtime.evaluate", words);
            if (fault) throw new Error(fault.exception?.description ?? fault.text);
            return result.value;
        };
        return here;
    }

    async function close() {
        const ended = new Promise(resolve => child.on("exit", resolve));
        await send("Browser.close");
        await ended;
        fs.rmSync(folder, { recursive: true, force: true, maxRetries: 5 });
    }

    return { tab, close, listen: listener => listeners.push(listener) };
}

module.exports = { launch };
