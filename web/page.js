// The page: map, clicks, lines, forms. WASM and SAMPLES are base64, put in by tools/page.
"use strict";

const element = (id) => document.getElementById(id);
const decoded = (text) => Uint8Array.from(atob(text), (letter) => letter.charCodeAt(0));
const clamp = (number, low, high) => Math.min(Math.max(number, low), high);
const grouped = (number) => number.toLocaleString("en");
const PIXEL = 16;
const LAST = WIDTH - 1;
const SLICE_MS = 14;
const MOST_ROWS = 400;
const OUTSIDE = [233, 235, 238];

let zones;
// the middle of the map in units, and units in a pixel of the page
let view = { x: WIDTH / 2, y: WIDTH / 2, units: 100 };
// whether the view is the whole map, which it stays when the window changes
let whole = true;
let drawing = false;
let chosen = null;
let line = null;
let dragged = null;

const frame = element("frame");
const ground = element("ground");
const marks = element("marks");
const spare = document.createElement("canvas");

// ---- the view

const size = () => ({ width: frame.clientWidth, height: frame.clientHeight });
const wholeUnits = () => WIDTH / Math.min(size().width, size().height) / 0.98;

function unitAt({ px, py }) {
    const { width, height } = size();
    return { x: view.x + (px - width / 2) * view.units, y: view.y - (py - height / 2) * view.units };
}

function pixelAt(x, y) {
    const { width, height } = size();
    return [width / 2 + (x - view.x) / view.units, height / 2 - (y - view.y) / view.units];
}

// y goes upward: the row of units below a place is the one that it is in.
const positionAt = (at) => {
    const { x, y } = unitAt(at);
    return { x: clamp(Math.floor(x), 0, LAST), y: clamp(Math.floor(y), 0, LAST) };
};

function setView(next) {
    const units = clamp(next.units, 1 / 8, Math.max(wholeUnits() * 2, 1));
    const shown = ground.view;
    whole = false;
    view = { x: clamp(next.x, 0, WIDTH), y: clamp(next.y, 0, WIDTH), units };
    moveGround(shown);
    drawMarks();
    startDrawing();
}

function zoom(factor, at = { px: size().width / 2, py: size().height / 2 }) {
    const before = unitAt(at);
    const units = clamp(view.units * factor, 1 / 8, wholeUnits() * 2);
    const { width, height } = size();
    setView({
        x: before.x - (at.px - width / 2) * units,
        y: before.y + (at.py - height / 2) * units,
        units,
    });
}

function wholeMap() {
    setView({ x: WIDTH / 2, y: WIDTH / 2, units: wholeUnits() });
    whole = true;
}

// ---- the picture, by the library: pixel rows, and single positions where a pixel of the page is less than one of the library

const density = () => Math.min(window.devicePixelRatio || 1, 2);

function fit() {
    const { width, height } = size();
    for (const canvas of [ground, marks]) {
        canvas.width = Math.round(width * density());
        canvas.height = Math.round(height * density());
    }
    ground.view = null;
}

// What was drawn stays, moved and scaled, until it is drawn anew.
function moveGround(shown) {
    const context = ground.getContext("2d");
    if (shown) {
        spare.width = ground.width;
        spare.height = ground.height;
        spare.getContext("2d").drawImage(ground, 0, 0);
    }
    context.fillStyle = `rgb(${OUTSIDE})`;
    context.fillRect(0, 0, ground.width, ground.height);
    if (shown) {
        const scale = shown.units / view.units;
        const x = ground.width / 2 + ((shown.x - view.x) / view.units) * density() - (ground.width / 2) * scale;
        const y = ground.height / 2 - ((shown.y - view.y) / view.units) * density() - (ground.height / 2) * scale;
        context.imageSmoothingEnabled = scale < 1;
        context.drawImage(spare, x, y, ground.width * scale, ground.height * scale);
    }
    ground.view = view;
}

let job = 0;

function startDrawing() {
    job += 1;
    delete document.body.dataset.drawn;
    if (!drawing) return;
    const mine = job;
    const began = performance.now();
    const { width, height } = ground;
    const context = ground.getContext("2d");
    const units = view.units / density();
    const left = view.x - (width / 2) * units;
    const top = view.y + (height / 2) * units;
    const image = context.createImageData(width, 1);
    const rows = rowsInOrder(height, units);
    let next = 0;
    element("state").textContent = "Drawing the map.";
    const step = () => {
        if (mine !== job) return;
        const until = performance.now() + SLICE_MS;
        while (next < rows.length && performance.now() < until) {
            const { row, high, mean } = rows[next++];
            drawRow(image.data, Math.floor(top - (row + 0.5) * units), { left, units, width, mean });
            for (let i = 0; i < Math.min(high, height - row); i++) context.putImageData(image, 0, row + i);
            if (next === rows.first) drawn(began);
        }
        if (next < rows.length) setTimeout(step, 0);
    };
    step();
}

function drawn(began) {
    const seconds = ((performance.now() - began) / 1000).toFixed(1);
    element("state").textContent = `Drawn in ${seconds} s, ${scaleText()}.`;
    document.body.dataset.drawn = "yes";
}

function scaleText() {
    const units = view.units / density();
    const dot = units < 10 ? units.toFixed(2) : Math.round(units);
    return units < PIXEL ? `position by position; a dot is ${dot} units wide` : `from the library's pixel rows; a dot is ${dot} units wide`;
}

// Every sixteenth row first, then every fourth, then all: one pixel of the library for each dot. Where a dot holds several, each row again, the mean
// of those along it.
function rowsInOrder(height, units) {
    const rows = [];
    for (let row = 0; row < height; row += 16) rows.push({ row, high: 16 });
    for (let row = 0; row < height; row += 4) if (row % 16 !== 0) rows.push({ row, high: 4 });
    for (let row = 0; row < height; row += 1) if (row % 4 !== 0) rows.push({ row, high: 1 });
    rows.first = rows.length;
    if (units >= 2 * PIXEL) for (let row = 0; row < height; row += 1) rows.push({ row, high: 1, mean: true });
    return rows;
}

function drawRow(data, y, dots) {
    if (y < 0 || y > LAST) for (let i = 0; i < dots.width; i++) put(data, i, ...OUTSIDE);
    else if (dots.units < PIXEL) rowOfPositions(data, y, dots);
    else if (dots.mean) rowOfMeans(data, y, dots);
    else rowOfPixels(data, y, dots);
}

function put(data, i, red, green, blue) {
    data[4 * i] = red;
    data[4 * i + 1] = green;
    data[4 * i + 2] = blue;
    data[4 * i + 3] = 255;
}

function rowOfPixels(data, y, { left, units, width }) {
    for (let i = 0; i < width; i++) {
        const x = Math.floor(left + (i + 0.5) * units);
        if (x < 0 || x > LAST) {
            put(data, i, ...OUTSIDE);
            continue;
        }
        zones.onePixel(y >> 4, x >> 4);
        put(data, i, zones.row[0], zones.row[1], zones.row[2]);
    }
}

function rowOfMeans(data, y, { left, units, width }) {
    const first = clamp(Math.floor(left / PIXEL), 0, MOST.pixels - 1);
    const last = clamp(Math.floor((left + width * units) / PIXEL), 0, MOST.pixels - 1);
    zones.pixelRow(y >> 4, first, last - first + 1);
    for (let i = 0; i < width; i++) {
        const from = left + i * units;
        if (from + units / 2 < 0 || from + units / 2 >= WIDTH) {
            put(data, i, ...OUTSIDE);
            continue;
        }
        const begin = clamp(Math.floor(from / PIXEL), first, last);
        const end = clamp(Math.floor((from + units) / PIXEL), begin + 1, last + 1);
        let [red, green, blue] = [0, 0, 0];
        for (let at = 3 * (begin - first); at < 3 * (end - first); at += 3) {
            red += zones.row[at];
            green += zones.row[at + 1];
            blue += zones.row[at + 2];
        }
        const count = end - begin;
        put(data, i, red / count, green / count, blue / count);
    }
}

function rowOfPositions(data, y, { left, units, width }) {
    // The colour in hand is that of each x below this.
    let reach = 0;
    for (let i = 0; i < width; i++) {
        const x = Math.floor(left + (i + 0.5) * units);
        if (x < 0 || x > LAST) {
            put(data, i, ...OUTSIDE);
            continue;
        }
        if (x >= reach) reach = zones.colour(x, y);
        put(data, i, zones.words[3], zones.words[4], zones.words[5]);
    }
}

// ---- what is marked on it

function drawMarks() {
    const context = marks.getContext("2d");
    context.setTransform(density(), 0, 0, density(), 0, 0);
    context.clearRect(0, 0, marks.width, marks.height);
    if (!drawing) return;
    if (element("cells").checked) drawCells(context);
    if (chosen) drawChosen(context);
    const shown = dragged ?? line;
    if (shown) drawLine(context, shown);
}

// Each side where it is rounded to, so that the sides of neighbours fall together.
function square(context, { x, y, side }) {
    const dot = (place) => Math.round(place * density()) / density() + 0.5 / density();
    const [left, bottom] = pixelAt(x, y).map(dot);
    const [right, top] = pixelAt(x + side, y + side).map(dot);
    context.rect(left, top, right - left, bottom - top);
}

function drawCells(context) {
    context.beginPath();
    for (const leaf of zones.leaves()) if (leaf.side / view.units >= 3) square(context, leaf);
    context.lineWidth = 1 / density();
    context.strokeStyle = "rgba(20, 40, 80, 0.5)";
    context.stroke();
}

// Light around dark, to be seen on any colour.
function strokeTwice(context, wide) {
    context.lineWidth = wide + 2.5;
    context.strokeStyle = "rgba(255, 255, 255, 0.9)";
    context.stroke();
    context.lineWidth = wide;
    context.strokeStyle = "#0b2f55";
    context.stroke();
}

function drawChosen(context) {
    context.beginPath();
    square(context, chosen.leaf);
    strokeTwice(context, 1.5);
    const [x, y] = pixelAt(chosen.x + 0.5, chosen.y + 0.5);
    context.beginPath();
    context.moveTo(x - 9, y);
    context.lineTo(x + 9, y);
    context.moveTo(x, y - 9);
    context.lineTo(x, y + 9);
    strokeTwice(context, 2);
}

function drawLine(context, { from, to, log }) {
    context.beginPath();
    context.moveTo(...pixelAt(from.x + 0.5, from.y + 0.5));
    context.lineTo(...pixelAt(to.x + 0.5, to.y + 0.5));
    strokeTwice(context, 2);
    if (!log) return;
    for (const { x, y } of log) {
        context.beginPath();
        context.arc(...pixelAt(x + 0.5, y + 0.5), 4, 0, 2 * Math.PI);
        context.fillStyle = "#ffffff";
        context.fill();
        strokeTwice(context, 1.5);
    }
    if (log.length > 24) return;
    context.font = "600 13px system-ui, sans-serif";
    context.textBaseline = "bottom";
    for (const { x, y, material } of log) {
        const [px, py] = pixelAt(x + 0.5, y + 0.5);
        context.lineWidth = 4;
        context.strokeStyle = "rgba(255, 255, 255, 0.9)";
        context.strokeText(material, px + 7, py - 5);
        context.fillStyle = "#0b2f55";
        context.fillText(material, px + 7, py - 5);
    }
}

// ---- answers

function tag(name, text = "", className = "") {
    const made = document.createElement(name);
    if (text !== "") made.textContent = text;
    if (className) made.className = className;
    return made;
}

function swatch(colour) {
    const made = tag("span", "", "swatch");
    made.style.background = `rgb(${colour})`;
    return made;
}

function table(names, rows) {
    const made = tag("table");
    const head = made.appendChild(tag("thead")).appendChild(tag("tr"));
    for (const name of names) head.append(tag("th", name));
    const body = made.appendChild(tag("tbody"));
    for (const cells of rows) {
        const row = body.appendChild(tag("tr"));
        for (const cell of cells) {
            const one = row.appendChild(tag("td"));
            one.append(...[cell].flat());
        }
    }
    return made;
}

function refusal(id, error) {
    if (!(error instanceof Refused)) throw error;
    element(id).replaceChildren(tag("p", error.message));
}

function fill(form, numbers) {
    for (const [name, number] of Object.entries(numbers)) element(form).elements[name].value = number;
}

function show(x, y) {
    if (!drawing) return;
    fill("at", { x, y });
    try {
        const reading = zones.position(x, y);
        const leaf = zones.findLeaf(x, y);
        chosen = { x, y, leaf };
        element("position").replaceChildren(...positionText(chosen, reading));
    } catch (error) {
        chosen = null;
        refusal("position", error);
    }
    drawMarks();
}

function positionText({ x, y, leaf }, { shown, material, colour }) {
    const answer = tag("p", "", "big");
    answer.append(swatch(colour), `material ${material}, colour ${colour.join(" ")}`);
    const parts = [tag("p", `At ${x}, ${y}:`), answer];
    if (shown.length === 0) parts.push(tag("p", "No area shows here: white ground.", "small"));
    else {
        const rows = shown.map((number) => {
            const area = zones.area(number);
            return [String(number), String(area.material), String(area.alpha), [swatch(area.colour), area.colour.join(" ")]];
        });
        parts.push(tag("p", "Areas that show, front first:", "small"), table(["area", "material", "alpha", "colour"], rows));
    }
    const where = `cell ${leaf.cell}: side ${leaf.side} at ${leaf.x}, ${leaf.y}; depth ${leaf.depth}, entries ${leaf.entries}, lines ${leaf.lines}`;
    const reach = leaf.uniform ? "Each position of it shows the same." : "Its stream has a line, a curve or a shortcut.";
    parts.push(tag("p", `The leaf around it, ${where}. ${reach}`, "small"));
    return parts;
}

// A position for each unit of the longer way, so that no unit is left out.
function run(from, to) {
    const steps = Math.max(Math.abs(to.x - from.x), Math.abs(to.y - from.y));
    for (let i = 0; i <= steps; i++) {
        const part = steps === 0 ? 0 : i / steps;
        zones.px[i] = Math.round(from.x + (to.x - from.x) * part);
        zones.py[i] = Math.round(from.y + (to.y - from.y) * part);
    }
    return steps + 1;
}

function showLog(from, to) {
    if (!drawing) return;
    fill("line", { x0: from.x, y0: from.y, x1: to.x, y1: to.y });
    try {
        if ([from.x, from.y, to.x, to.y].some((number) => number > LAST)) throw new Refused(7, 0);
        const positions = run(from, to);
        const log = zones.zoneLog(positions).map((index) => ({ index, x: zones.px[index], y: zones.py[index] }));
        for (const entry of log) Object.assign(entry, zones.position(entry.x, entry.y));
        line = { from, to, log };
        element("log").replaceChildren(...logText(line, positions));
    } catch (error) {
        line = null;
        refusal("log", error);
    }
    drawMarks();
}

function logText({ from, to, log }, positions) {
    const rows = log.slice(0, MOST_ROWS).map(({ index, x, y, material, colour }) => {
        return [String(index), `${x}, ${y}`, [swatch(colour), String(material)]];
    });
    const scroll = tag("div", "", "scroll");
    scroll.tabIndex = 0;
    scroll.append(table(["index", "position", "material"], rows));
    const ends = `From ${from.x}, ${from.y} to ${to.x}, ${to.y}`;
    const parts = [tag("p", `${ends}: ${grouped(positions)} positions, ${grouped(log.length)} in the log.`, "small"), scroll];
    if (log.length > MOST_ROWS) parts.push(tag("p", `The first ${MOST_ROWS} are listed.`, "small"));
    return parts;
}

// ---- a drawing, and its tree

function clear() {
    chosen = line = dragged = null;
    element("position").replaceChildren(tag("p", "Click on the map, or give x and y.", "none"));
    element("log").replaceChildren(tag("p", "Drag a line on the map, or give its ends.", "none"));
    element("grown").replaceChildren();
    element("at").reset();
    element("line").reset();
}

function load(records) {
    clear();
    drawing = false;
    element("refused").hidden = true;
    try {
        zones.read(records);
        drawing = true;
        grow();
    } catch (error) {
        if (!(error instanceof Refused)) throw error;
        drawing = false;
        element("refused").hidden = false;
        element("refused").textContent = `Drawing ${error.message}.`;
        element("state").textContent = "";
        for (const id of ["position", "log"]) element(id).replaceChildren(tag("p", "There is no drawing to ask.", "none"));
    }
    fit();
    wholeMap();
}

// A tree anew: opened, and grown by the form's numbers.
function grow() {
    const { threshold, limit } = element("tree").elements;
    zones.open();
    const { splits, full } = zones.grow(Number(threshold.value), Number(limit.value));
    const [records, areas, corners] = zones.plan;
    const leaves = Array.from(zones.leaves()).length;
    const text = `${splits} splits, ${full ? "full" : "done"}: ${zones.head[0]} cells, ${leaves} of them leaves, ${zones.head[1]} entries.`;
    element("grown").replaceChildren(
        tag("p", text, "small"),
        tag("p", `The drawing: ${records} records, ${areas} areas, ${corners} corners.`, "small"),
    );
}

function growAgain() {
    if (!drawing) return;
    try {
        grow();
        if (chosen) show(chosen.x, chosen.y);
    } catch (error) {
        refusal("grown", error);
    }
    drawMarks();
    startDrawing();
}

// ---- what a person does

const place = (event) => {
    const box = marks.getBoundingClientRect();
    return { px: event.clientX - box.left, py: event.clientY - box.top };
};
const CLICK = 5;
const pointers = new Map();
let act = null;

function middle() {
    const [a, b] = [...pointers.values()];
    return { px: (a.px + b.px) / 2, py: (a.py + b.py) / 2, apart: Math.hypot(a.px - b.px, a.py - b.py) };
}

function pointerDown(event) {
    pointers.set(event.pointerId, place(event));
    marks.setPointerCapture(event.pointerId);
    if (pointers.size === 2) {
        act = { kind: "two", at: middle() };
        dragged = null;
        drawMarks();
    } else if (pointers.size === 1) {
        const moving = event.shiftKey || event.button !== 0;
        act = { kind: moving ? "move" : "line", at: place(event), from: positionAt(place(event)), far: false };
        marks.classList.toggle("moving", moving);
    }
}

function pointerMove(event) {
    if (!pointers.has(event.pointerId) || !act) return;
    pointers.set(event.pointerId, place(event));
    const at = place(event);
    if (act.kind === "move") {
        moveBy(at.px - act.at.px, at.py - act.at.py);
        act.at = at;
    } else if (act.kind === "two" && pointers.size === 2) {
        const now = middle();
        moveBy(now.px - act.at.px, now.py - act.at.py);
        if (now.apart > 10 && act.at.apart > 10) zoom(act.at.apart / now.apart, now);
        act.at = now;
    } else if (act.kind === "line") {
        act.far ||= Math.hypot(at.px - act.at.px, at.py - act.at.py) >= CLICK;
        if (act.far && drawing) {
            dragged = { from: act.from, to: positionAt(at) };
            drawMarks();
        }
    }
}

const moveBy = (px, py) => setView({ ...view, x: view.x - px * view.units, y: view.y + py * view.units });

function pointerUp(event) {
    if (!pointers.delete(event.pointerId)) return;
    const done = act;
    if (pointers.size > 0) return;
    act = null;
    marks.classList.remove("moving");
    if (done?.kind !== "line") return;
    const to = positionAt(place(event));
    dragged = null;
    if (event.type === "pointercancel") drawMarks();
    else if (done.far) showLog(done.from, to);
    else show(to.x, to.y);
}

function keyDown(event) {
    const { width, height } = size();
    const acts = {
        ArrowLeft: () => moveBy(width / 8, 0),
        ArrowRight: () => moveBy(-width / 8, 0),
        ArrowUp: () => moveBy(0, height / 8),
        ArrowDown: () => moveBy(0, -height / 8),
        "+": () => zoom(1 / 1.5),
        "=": () => zoom(1 / 1.5),
        "-": () => zoom(1.5),
        0: wholeMap,
    };
    if (!(event.key in acts) || event.ctrlKey || event.metaKey || event.altKey) return;
    event.preventDefault();
    acts[event.key]();
}

const numbers = (form) => Object.fromEntries([...new FormData(form)].map(([name, text]) => [name, Number(text)]));

function onSubmit(id, act) {
    element(id).addEventListener("submit", (event) => {
        event.preventDefault();
        act(numbers(event.target));
    });
}

async function ownFile(event) {
    const [file] = event.target.files;
    if (!file) return;
    element("sample").value = "";
    load(new Uint8Array(await file.arrayBuffer()));
}

// #sample=pit&click=40000,30000&line=0,0,65535,65535&cells=1&view=40000,30000,8 does what a person could.
function fromAddress() {
    const words = new URLSearchParams(location.hash.slice(1));
    const list = (name) => (words.get(name) ?? "").split(",").map(Number);
    const sample = words.get("sample") ?? element("sample").value;
    for (const name of ["threshold", "limit"]) if (words.has(name)) element("tree").elements[name].value = words.get(name);
    element("cells").checked = words.get("cells") === "1";
    if (sample in SAMPLES) {
        element("sample").value = sample;
        load(decoded(SAMPLES[sample]));
    }
    if (words.has("view")) {
        const [x, y, units] = list("view");
        setView({ x, y, units });
    }
    if (words.has("click")) show(...list("click"));
    if (words.has("line")) {
        const [x0, y0, x1, y1] = list("line");
        showLog({ x: x0, y: y0 }, { x: x1, y: y1 });
    }
}

function listen() {
    element("sample").addEventListener("change", (event) => {
        if (event.target.value in SAMPLES) load(decoded(SAMPLES[event.target.value]));
    });
    element("file").addEventListener("change", ownFile);
    element("cells").addEventListener("change", drawMarks);
    element("in").addEventListener("click", () => zoom(1 / 2));
    element("out").addEventListener("click", () => zoom(2));
    element("whole").addEventListener("click", wholeMap);
    onSubmit("at", ({ x, y }) => show(x, y));
    onSubmit("line", ({ x0, y0, x1, y1 }) => showLog({ x: x0, y: y0 }, { x: x1, y: y1 }));
    onSubmit("tree", growAgain);
    marks.addEventListener("pointerdown", pointerDown);
    marks.addEventListener("pointermove", pointerMove);
    marks.addEventListener("pointerup", pointerUp);
    marks.addEventListener("pointercancel", pointerUp);
    marks.addEventListener("contextmenu", (event) => event.preventDefault());
    marks.addEventListener("keydown", keyDown);
    marks.addEventListener("wheel", (event) => {
        event.preventDefault();
        zoom(2 ** clamp(event.deltaY / 300, -1, 1), place(event));
    }, { passive: false });
    window.addEventListener("hashchange", fromAddress);
    new ResizeObserver(() => {
        const { width, height } = size();
        if (marks.width === Math.round(width * density()) && marks.height === Math.round(height * density())) return;
        fit();
        if (whole) wholeMap();
        else setView(view);
    }).observe(frame);
}

async function start() {
    zones = await Zones.load(decoded(WASM));
    for (const name of Object.keys(SAMPLES)) {
        const option = tag("option", name);
        option.value = name;
        element("sample").append(option);
    }
    const none = tag("option", "a file");
    none.value = "";
    none.hidden = true;
    element("sample").append(none);
    fromAddress();
    listen();
}

start().catch((error) => {
    element("state").textContent = `This page cannot run here: ${error.message}`;
});
