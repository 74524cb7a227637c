// The nine calls as a class: one drawing and its tree, in the memory of the WebAssembly module.
"use strict";

const MOST = {
    fileBytes: 65536,
    plan: 4099,
    areas: 512,
    corners: 2048,
    cells: 32768,
    entries: 262144,
    run: 65536,
    pixels: 4096,
};
const AREA_WORDS = 8;
const CELL_WORDS = 8;
const POSITION_WORDS = 10;
const LEAF_WORDS = 8;
const FULL = 2 ** 31;
const WIDTH = 65536;

const REFUSALS = [
    "",
    "the length of the file is no multiple of 16, or it has over 4,096 records",
    "unknown kind of record",
    "a field is out of range, or an unnamed byte is not zero",
    "the record does not fit where it stands, or a group is open at the end",
    "a contour of under 3 corners",
    "the 65th area, the 2,049th corner or the 9th open group",
    "an argument is out of range: unequal tables of x and y, a position, a depth limit, a pixel row, first pixel or buffer",
    "there is no cell of this number",
    "the cell is already split",
    "the cell has side 1",
    "a table is too short for the whole result",
    "a number in the tables is out of range, or the drawing or stream in them breaks the grammar",
    "a curve's x or y are not in order, or it spans over 4,096 units",
];

// What a refused call throws.
class Refused extends Error {
    constructor(number, place) {
        super(`refused ${number} at ${place}: ${REFUSALS[number]}`);
        this.number = number;
        this.place = place;
    }
}

class Zones {
    // Tables at their limits, one behind the other from the first free byte of the module's memory.
    constructor(instance) {
        this.calls = instance.exports;
        const { memory, __heap_base } = this.calls;
        let free = __heap_base.value;
        const lay = (length, bytes = 4) => {
            const at = (free + 15) & ~15;
            free = at + length * bytes;
            return { at, length };
        };
        const tables = {
            file: lay(MOST.fileBytes + 16, 1),
            plan: lay(MOST.plan),
            areas: lay(MOST.areas),
            xs: lay(MOST.corners),
            ys: lay(MOST.corners),
            head: lay(2),
            cells: lay(MOST.cells),
            entries: lay(MOST.entries),
            words: lay(Math.max(POSITION_WORDS, LEAF_WORDS)),
            px: lay(MOST.run),
            py: lay(MOST.run),
            log: lay(MOST.run),
            row: lay(3 * MOST.pixels, 1),
        };
        const missing = free - memory.buffer.byteLength;
        if (missing > 0) memory.grow(Math.ceil(missing / 65536));
        const words = (name) => new Uint32Array(memory.buffer, tables[name].at, tables[name].length);
        const bytes = (name) => new Uint8Array(memory.buffer, tables[name].at, tables[name].length);
        this.file = bytes("file");
        this.areas = words("areas");
        this.plan = words("plan");
        this.head = words("head");
        this.cells = words("cells");
        this.words = words("words");
        this.px = words("px");
        this.py = words("py");
        this.log = words("log");
        this.row = bytes("row");
        // a slice passes as a pointer and a length of 64 bits
        this.lend = (name, length = tables[name].length) => [tables[name].at, BigInt(length)];
        this.drawing = ["plan", "areas", "xs", "ys"].flatMap((name) => this.lend(name));
        this.lent = [...this.drawing, ...["head", "cells", "entries"].flatMap((name) => this.lend(name))];
        this.positionWords = this.lend("words", POSITION_WORDS);
        this.leafWords = this.lend("words", LEAF_WORDS);
        this.threeBytes = this.lend("row", 3);
    }

    static async load(bytes) {
        const { instance } = await WebAssembly.instantiate(bytes, {});
        return new Zones(instance);
    }

    // The high half of an answer is the refusal's number, 0 if the call was accepted.
    result(answer) {
        const number = Number((answer >> 32n) & 0xffffffffn);
        const low = Number(answer & 0xffffffffn);
        if (number !== 0) throw new Refused(number, low);
        return low;
    }

    // A file of records; one that is longer than any drawing is refused by its length.
    read(records) {
        const length = Math.min(records.length, this.file.length);
        this.file.set(records.subarray(0, length));
        const lent = ["plan", "areas", "xs", "ys"].flatMap((name) => this.lend(name));
        return this.result(this.calls.zones_read(...this.lend("file", length), ...lent));
    }

    open() {
        return this.result(this.calls.zones_open(...this.lent));
    }

    grow(threshold, limit) {
        const splits = this.result(this.calls.zones_grow(...this.lent, threshold, limit));
        return { splits: splits % FULL, full: splits >= FULL };
    }

    position(x, y) {
        this.result(this.calls.zones_position(...this.lent, x, y, ...this.positionWords));
        const [low, high, material, red, green, blue, uniform, left, bottom, side] = this.words;
        const shown = [];
        for (let i = 0; i < 64; i++) if (((i < 32 ? low : high) >>> i % 32) & 1) shown.push(i);
        return { shown, material, colour: [red, green, blue], uniform: uniform === 1, leaf: { x: left, y: bottom, side } };
    }

    // The colour alone, for pictures: words 3, 4 and 5 of `words`. Gives the first x to the right, in this row, that the answer does not reach.
    colour(x, y) {
        this.result(this.calls.zones_position(...this.lent, x, y, ...this.positionWords));
        const [uniform, left, , side] = this.words.subarray(6);
        return uniform === 1 ? left + side : x + 1;
    }

    findLeaf(x, y) {
        this.result(this.calls.zones_find_leaf(...this.lent, x, y, ...this.leafWords));
        const [cell, left, bottom, side, depth, entries, lines, uniform] = this.words;
        return { cell, x: left, y: bottom, side, depth, entries, lines, uniform: uniform === 1 };
    }

    // Pixels of a row into `row`, red, green and blue of each.
    pixelRow(row, first, pixels) {
        this.result(this.calls.zones_pixel_row(...this.lent, row, first, ...this.lend("row", 3 * pixels)));
    }

    onePixel(row, first) {
        this.result(this.calls.zones_pixel_row(...this.lent, row, first, ...this.threeBytes));
    }

    // The zone log of the first positions of px and py.
    zoneLog(positions) {
        const run = ["px", "py", "log"].flatMap((name) => this.lend(name, positions));
        const indices = this.result(this.calls.zones_zone_log(...this.lent, ...run));
        return Array.from(this.log.subarray(0, indices));
    }

    area(number) {
        const [role, rule, alpha, red, green, blue, material] = this.areas.subarray(AREA_WORDS * number);
        return { role, rule, alpha, colour: [red, green, blue], material };
    }

    // Every leaf's square.
    *leaves() {
        for (let cell = 0; cell < this.head[0]; cell++) {
            const [x, y, side, child] = this.cells.subarray(CELL_WORDS * cell, CELL_WORDS * cell + 4);
            if (child === 0) yield { x, y, side };
        }
    }
}
