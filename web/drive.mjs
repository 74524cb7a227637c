// Drives the page in headless Chromium, as a person would, for tests and screenshots: node web/drive.mjs CHROMIUM PAGE.html < STEPS
// A step is a line:
//   size WIDTH HEIGHT [phone]     open [FRAGMENT]          click X Y            drag X Y X Y [shift]
//   wheel X Y DELTA               key NAME                 press ID             file PATH
//   set FORM NAME VALUE           submit FORM              text ID              shot FILE.png
//   colour X Y                    prints the position there and the colour of the dot that is drawn
//   tap X Y                       pinch X Y FROM TO        (fingers on a phone; FROM and TO pixels apart)
// X and Y are pixels of the map from its upper left corner. `text` prints the words of an element on a line. Each step waits until the map is drawn.
import { spawn } from "node:child_process";
import fs from "node:fs";
import os from "node:os";
import path from "node:path";
import { pathToFileURL } from "node:url";

const [chromium, page] = process.argv.slice(2);
const steps = fs.readFileSync(0, "utf8").split("\n").map((step) => step.trim()).filter(Boolean);
const home = fs.mkdtempSync(path.join(os.tmpdir(), "page-"));
const words = ["--headless", "--no-sandbox", "--disable-gpu", "--remote-debugging-pipe", `--user-data-dir=${home}`, "about:blank"];
const browser = spawn(chromium, words, { stdio: ["ignore", "ignore", "ignore", "pipe", "pipe"] });
const [to, from] = [browser.stdio[3], browser.stdio[4]];

// ---- messages are JSON, each ended by a zero byte
const waiting = new Map();
let last = 0;
let rest = "";
from.setEncoding("utf8");
from.on("data", (text) => {
    const parts = (rest + text).split("\0");
    rest = parts.pop();
    for (const part of parts) {
        const message = JSON.parse(part);
        if (message.method === "Runtime.exceptionThrown") fail(message.params.exceptionDetails.exception?.description ?? "an exception");
        const done = waiting.get(message.id);
        waiting.delete(message.id);
        if (message.error) fail(JSON.stringify(message.error));
        done?.(message.result);
    }
});
browser.on("exit", () => fail("the browser has ended"));

let session;
function send(method, params = {}) {
    last += 1;
    to.write(JSON.stringify({ id: last, method, params, sessionId: session }) + "\0");
    return new Promise((done) => waiting.set(last, done));
}

// Its processes may still write to its folder when it has ended; what then stays is in the system's temporary folder.
function end(status) {
    browser.removeAllListeners("exit");
    browser.on("exit", () => {
        try {
            fs.rmSync(home, { recursive: true, force: true, maxRetries: 10, retryDelay: 50 });
        } catch (error) {
            console.error(`drive: ${home} stays: ${error.message}`);
        }
        process.exit(status);
    });
    browser.kill();
}

function fail(what) {
    console.error(`drive: ${what}`);
    if (browser.exitCode !== null || browser.signalCode !== null) process.exit(1);
    end(1);
}

async function evaluate(expression) {
    const { result, exceptionDetails } = await send("Runtime.evaluate", { expression, awaitPromise: true, returnByValue: true });
    if (exceptionDetails) fail(exceptionDetails.exception?.description ?? exceptionDetails.text);
    return result.value;
}

const pause = (ms) => new Promise((done) => setTimeout(done, ms));

// Drawn, or refused, or no page yet.
async function settled() {
    for (let i = 0; i < 600; i++) {
        await pause(50);
        if (await evaluate("document.body?.dataset.drawn === 'yes' || document.getElementById('refused')?.hidden === false")) return;
    }
    fail("the map was not drawn in 30 seconds");
}

async function box() {
    return JSON.parse(await evaluate("{ const b = document.getElementById('marks').getBoundingClientRect(); JSON.stringify([b.left, b.top]) }"));
}

async function mouse(type, [x, y], more = {}) {
    const [left, top] = await box();
    await send("Input.dispatchMouseEvent", { type, x: left + Number(x), y: top + Number(y), button: "left", buttons: 1, clickCount: 1, ...more });
}

async function touch(type, places) {
    const [left, top] = await box();
    const touchPoints = places.map(([x, y], id) => ({ x: left + Number(x), y: top + Number(y), id }));
    await send("Input.dispatchTouchEvent", { type, touchPoints });
}

const KEYS = { "+": 187, "-": 189, Tab: 9, Enter: 13, ArrowLeft: 37, ArrowUp: 38, ArrowRight: 39, ArrowDown: 40 };

const acts = {
    size: async ([width, height, phone]) => {
        await send("Emulation.setTouchEmulationEnabled", { enabled: Boolean(phone), maxTouchPoints: phone ? 2 : 1 });
        await send("Emulation.setDeviceMetricsOverride", {
            width: Number(width),
            height: Number(height),
            deviceScaleFactor: phone ? 2 : 1,
            mobile: Boolean(phone),
        });
    },
    open: async ([fragment = ""]) => {
        await send("Page.navigate", { url: "about:blank" });
        await send("Page.navigate", { url: pathToFileURL(path.resolve(page)).href + fragment });
    },
    click: async (at) => {
        await mouse("mousePressed", at);
        await mouse("mouseReleased", at);
    },
    drag: async ([x0, y0, x1, y1, shift]) => {
        const more = { modifiers: shift ? 8 : 0 };
        await mouse("mousePressed", [x0, y0], more);
        const between = (part) => [Number(x0) + (x1 - x0) * part, Number(y0) + (y1 - y0) * part];
        for (const part of [0.25, 0.5, 1]) await mouse("mouseMoved", between(part), more);
        await mouse("mouseReleased", [x1, y1], more);
    },
    wheel: ([x, y, delta]) => mouse("mouseWheel", [x, y], { deltaX: 0, deltaY: Number(delta), button: "none", buttons: 0 }),
    tap: async (at) => {
        await touch("touchStart", [at]);
        await touch("touchEnd", []);
    },
    pinch: async ([x, y, from, to]) => {
        const fingers = (apart) => [[Number(x) - apart / 2, y], [Number(x) + apart / 2, y]];
        await touch("touchStart", fingers(Number(from)));
        for (const part of [0.25, 0.5, 0.75, 1]) await touch("touchMove", fingers(Number(from) + (to - from) * part));
        await touch("touchEnd", []);
    },
    key: async ([key]) => {
        for (const type of ["keyDown", "keyUp"]) await send("Input.dispatchKeyEvent", { type, key, windowsVirtualKeyCode: KEYS[key] });
    },
    press: ([id]) => evaluate(`document.getElementById(${JSON.stringify(id)}).click()`),
    set: ([form, name, value]) => evaluate(`document.getElementById("${form}").elements["${name}"].value = ${JSON.stringify(value)}; 0`),
    submit: ([form]) => evaluate(`document.getElementById("${form}").requestSubmit()`),
    file: async ([file]) => {
        const { root } = await send("DOM.getDocument");
        const { nodeId } = await send("DOM.querySelector", { nodeId: root.nodeId, selector: "#file" });
        await send("DOM.setFileInputFiles", { nodeId, files: [path.resolve(file)] });
    },
    text: async ([id]) => {
        const text = await evaluate(`document.getElementById("${id}").innerText`);
        console.log(text.replace(/\s+/g, " ").trim());
    },
    colour: async ([x, y]) => {
        const dot = `ground.getContext("2d").getImageData(${x}, ${y}, 1, 1).data.slice(0, 3)`;
        console.log(await evaluate(`{ const at = positionAt({ px: ${x} + 0.5, py: ${y} + 0.5 }); [at.x, at.y, ...${dot}].join(" ") }`));
    },
    shot: async ([file]) => {
        const { data } = await send("Page.captureScreenshot");
        fs.writeFileSync(file, Buffer.from(data, "base64"));
    },
};

const { targetInfos } = await send("Target.getTargets");
const { targetId } = targetInfos.find((target) => target.type === "page");
({ sessionId: session } = await send("Target.attachToTarget", { targetId, flatten: true }));
await send("Page.enable");
await send("Runtime.enable");
for (const step of steps) {
    const [name, ...given] = step.split(/\s+/);
    if (!(name in acts)) fail(`no step ${name}`);
    await acts[name](given);
    if (!["size", "text", "colour", "shot"].includes(name)) await settled();
}
end(0);
