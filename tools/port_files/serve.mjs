// Answers the calls of stub.c from a WebAssembly module: node serve.mjs target/port/wasm32/zones.wasm. wire.h says what goes over the pipes.
// Each slice lies in the module's memory between guards; after every call the guards and the slices lent to be read are compared with what they were.
import fs from "node:fs";

const CALLS = [
    "zones_read",
    "zones_write",
    "zones_open",
    "zones_split",
    "zones_grow",
    "zones_find_leaf",
    "zones_position",
    "zones_pixel_row",
    "zones_zone_log",
];
// how many numbers a call takes, behind its first seven slices
const NUMBERS = [0, 0, 0, 1, 2, 2, 2, 2, 0];
const [BYTES, WRITTEN, SAME] = [1, 2, 4];
const [GUARD_CHANGED, LENT_CHANGED] = [1, 2];
const MOST_SLICES = 10;
const HEAD_BYTES = 4 * (2 + 2 * MOST_SLICES + 2);
const GUARD_BYTES = 64;
const GUARD = Buffer.alloc(GUARD_BYTES, 0xa5);
// bytes are compared in steps of so many
const STEP = 1024;

const module = new WebAssembly.Module(fs.readFileSync(process.argv[2]));
const { exports } = new WebAssembly.Instance(module, {});
const { memory } = exports;
let bytes = Buffer.from(memory.buffer);

// Memory is given out from __heap_base upward and never taken back; a slice that grows moves to twice the room.
let free = exports.__heap_base.value;
function take(count) {
    const at = (free + 15) & ~15;
    free = at + count;
    const missing = free - memory.buffer.byteLength;
    if (missing > 0) {
        memory.grow(Math.ceil(missing / 65536));
        bytes = Buffer.from(memory.buffer);
    }
    return at;
}

// What is known of each slice: its room, where it begins, its bytes as they were before the call.
const slots = Array.from({ length: MOST_SLICES }, () => ({ at: 0, room: -1, begin: 0, count: 0, before: Buffer.alloc(0) }));

function readAll(into) {
    let done = 0;
    while (done < into.length) {
        const now = fs.readSync(0, into, done, into.length - done, null);
        if (now === 0) {
            if (done === 0) return false;
            throw new Error("the request ends early");
        }
        done += now;
    }
    return true;
}

function writeAll(from) {
    let done = 0;
    while (done < from.length) done += fs.writeSync(1, from, done, from.length - done);
}

function place(slot, marks, length) {
    const count = marks & BYTES ? length : 4 * length;
    // bytes begin at an odd place, words at a multiple of four
    const shift = marks & BYTES ? 1 : 0;
    if (slot.room < count) {
        slot.room = 2 * count;
        slot.at = take(2 * GUARD_BYTES + slot.room + 4);
        slot.before = Buffer.alloc(slot.room);
    }
    slot.begin = slot.at + GUARD_BYTES + shift;
    slot.count = count;
}

function receive(slot) {
    const data = bytes.subarray(slot.begin, slot.begin + slot.count);
    readAll(data);
    GUARD.copy(bytes, slot.begin - GUARD_BYTES);
    GUARD.copy(bytes, slot.begin + slot.count);
    data.copy(slot.before);
}

function guarded(slot) {
    const end = slot.begin + slot.count;
    return (
        bytes.compare(GUARD, 0, GUARD_BYTES, slot.begin - GUARD_BYTES, slot.begin) === 0 &&
        bytes.compare(GUARD, 0, GUARD_BYTES, end, end + GUARD_BYTES) === 0
    );
}

// From the first step that has changed to the last.
function changed(slot) {
    const now = bytes.subarray(slot.begin, slot.begin + slot.count);
    const equal = (from, to) => now.compare(slot.before, from, to, from, to) === 0;
    if (equal(0, slot.count)) return now.subarray(0, 0);
    let from = 0;
    while (equal(from, Math.min(from + STEP, slot.count))) from += STEP;
    let to = slot.count;
    while (equal(Math.max(to - STEP, from), to)) to -= STEP;
    return now.subarray(from, to);
}

const head = Buffer.alloc(HEAD_BYTES);
while (readAll(head)) {
    const word = (i) => head.readUInt32LE(4 * i);
    const [call, count] = [word(0), word(1)];
    const marks = [];
    for (let i = 0; i < count; i++) {
        marks.push(word(2 + 2 * i));
        if (!(marks[i] & SAME)) {
            place(slots[i], marks[i], word(3 + 2 * i));
            receive(slots[i]);
        }
    }
    const list = [];
    for (let i = 0; i < count; i++) {
        if (i === 7) list.push(...numbers(call, word));
        list.push(slots[i].begin, BigInt(word(3 + 2 * i)));
    }
    if (count === 7) list.push(...numbers(call, word));
    if (list.length !== exports[CALLS[call]].length) throw new Error("the arguments of " + CALLS[call]);
    const answer = BigInt.asUintN(64, exports[CALLS[call]](...list));
    if (bytes.length === 0) throw new Error("a call made the memory grow");
    reply(answer, marks);
}

function numbers(call, word) {
    return [word(2 + 2 * MOST_SLICES), word(3 + 2 * MOST_SLICES)].slice(0, NUMBERS[call]);
}

function reply(answer, marks) {
    const parts = [Buffer.alloc(16)];
    parts[0].writeBigUInt64LE(answer);
    marks.forEach((mark, i) => {
        const slot = slots[i];
        const now = changed(slot);
        if (!guarded(slot)) wrong(parts[0], GUARD_CHANGED, i);
        if (!(mark & WRITTEN)) {
            if (now.length > 0) wrong(parts[0], LENT_CHANGED, i);
            return;
        }
        const from = now.length > 0 ? now.byteOffset - slot.begin : 0;
        const place = Buffer.alloc(8);
        place.writeUInt32LE(from);
        place.writeUInt32LE(now.length, 4);
        now.copy(slot.before, from);
        parts.push(place, now);
    });
    writeAll(Buffer.concat(parts));
}

function wrong(head, what, slice) {
    head.writeUInt32LE(what, 8);
    head.writeUInt32LE(slice, 12);
}
