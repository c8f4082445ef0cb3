// A recording and its picture at any word. The whole recording is run once (survey); on the way states are kept, so that any position is reached from the
// state before it in a few milliseconds. What is drawn is drawn by the card; this file knows which rows a word can touch, and no more.
import { FRESH_I, FRESH_Z } from './card.js';
import { commandOf, dataOf, completedBy, PTRN, X, PX, INIT, TO_MEMORY, I_ENABLE, Z_ENABLE } from './decode.js';

const RECORDS = 1024; // words from one kept record to the next
const AREA = 128; // so many pixels count as much effort as a word
// States keep blocks of so many places, those that changed; what may be run between two states, in words; the bytes that all states may take; and
// how many words before a position one more state is kept, for steps back from there.
const LIMITS = { block: 1 << 14, effort: 1 << 15, budget: 256 << 20, near: 256 };

// The words of a recording, 20 bits each, through a card. With `goOn` those that a damaged recording has, as mending counts them: whole words from the
// front, and what is left at the end is cut. Else a damaged one has the number that refuses it, and no words.
export function wordsOf(card, bytes, goOn) {
    const count = Math.floor(2 * bytes.length / 5), whole = goOn ? bytes.slice(0, Math.ceil(5 * count / 2)) : bytes;
    if (goOn && count % 2) whole[whole.length - 1] &= 0xf0;
    card.lend(whole, 0);
    return card.words();
}

// ---- what a word can touch

const drawsIn = command => command === X || command === PX || command === PTRN;

// The rows that a word can draw into, `low` to `high`, and `area`, how many pixels that is at most; `low` above `high` for none. It goes by the
// vertices of the figure that the word completes and by the window, and for PTRN by the region.
export function rowsOf(word, record, fields, rows) {
    rows.low = 1;
    rows.high = rows.area = 0;
    const command = commandOf(word);
    if (command === PTRN) {
        if (record[fields.region.way] === TO_MEMORY) rows.low = rows.high = record[fields.region.y];
        return rows;
    }
    if (command !== X && command !== PX) return rows;
    const figure = completedBy(record, fields, dataOf(word));
    if (!figure) return rows;
    const xs = figure.corners.map(c => c.x), ys = figure.corners.map(c => c.y);
    rows.low = Math.max(Math.min(...ys), record[fields.bottom]);
    rows.high = Math.min(Math.max(...ys), record[fields.top]);
    const across = Math.min(Math.max(...xs), record[fields.right], record[fields.line]) - Math.max(Math.min(...xs), record[fields.left]) + 1;
    rows.area = Math.max(0, across) * Math.max(0, rows.high - rows.low + 1);
    return rows;
}

// How many places two memories must have so that no picture of these words is cut off: as many as the highest row that a word can draw into, in the
// line length of its moment. Found by a walk over memories of no places.
export async function placesFor(card, words, goOn, tick) {
    const { fields, walk } = card, rows = {};
    let places = 0;
    card.reset(card.walkAt);
    for (let k = 0; k < words.length; k++) {
        if (!(k & 8191) && !await tick(k, words.length)) break;
        let end = 0;
        if (drawsIn(commandOf(words[k]))) {
            rowsOf(words[k], walk, fields, rows);
            if (rows.low <= rows.high) end = (rows.high + 1) * walk[fields.line];
        }
        if (card.walkOn(words[k])) { if (!goOn) break; } else if (end > places) places = end;
        if (walk[fields.line] > places && walk[fields.started]) places = walk[fields.line]; // one row at least
    }
    return places;
}

// ---- states

// The blocks of two memories, each as often as it changed.
class Shelf {
    constructor(card, block) {
        this.card = card;
        this.block = block;
        const n = Math.ceil(card.places / block);
        this.fresh = { at: 0 };
        this.versions = Array.from({ length: n }, () => [this.fresh]);
        this.loaded = new Array(n).fill(this.fresh); // which version the memories have; null where it changed since
        this.bytes = 0;
    }

    // A word drew into the places from `from` up to `end`.
    touch(from, end) {
        const { block } = this, last = Math.min(end, this.card.places) - 1;
        for (let b = Math.floor(from / block); b * block <= last; b++) this.loaded[b] = null;
    }

    // Keeps what changed, as it is after `at` words. Versions stand in the order of their words.
    keep(at, passing = false) {
        const { i, z, places } = this.card, { block } = this;
        for (let b = 0; b < this.loaded.length; b++) {
            if (this.loaded[b]) continue;
            const from = b * block, end = Math.min(places, from + block), versions = this.versions[b];
            const version = { at, passing, i: i.slice(from, end), z: z.slice(from, end) };
            versions.splice(versions.indexOf(latest(versions, at)) + 1, 0, version);
            this.loaded[b] = version;
            this.bytes += 4 * (end - from);
        }
    }

    // Drops the versions that were kept in passing.
    drop() {
        for (let b = 0; b < this.loaded.length; b++) {
            for (const version of this.versions[b]) if (version.passing) this.bytes -= 4 * version.i.length;
            this.versions[b] = this.versions[b].filter(version => !version.passing);
            if (this.loaded[b] && this.loaded[b].passing) this.loaded[b] = null;
        }
    }

    // The memories as they were after `at` words, for which `keep` was called.
    restore(at) {
        const { i, z, places } = this.card, { block } = this;
        for (let b = 0; b < this.loaded.length; b++) {
            const version = latest(this.versions[b], at);
            if (this.loaded[b] === version) continue;
            const from = b * block, end = Math.min(places, from + block);
            if (version === this.fresh) { i.fill(FRESH_I, from, end); z.fill(FRESH_Z, from, end); } else { i.set(version.i, from); z.set(version.z, from); }
            this.loaded[b] = version;
        }
    }

    // Drops the versions that none of these states needs.
    thin(states) {
        this.bytes = 0;
        this.versions = this.versions.map(versions => {
            const needed = new Set(states.map(state => latest(versions, state.at)));
            const kept = versions.filter(version => version === this.fresh || needed.has(version));
            for (const version of kept) if (version !== this.fresh) this.bytes += 4 * version.i.length;
            return kept;
        });
        // a version that is gone may still be what the memories have: it is no state's any more
        this.loaded = this.loaded.map((version, b) => version && this.versions[b].includes(version) ? version : null);
    }
}

// The last of some, by their `at`, that is not after `at`.
function latest(some, at) {
    let low = 0, high = some.length - 1;
    while (low < high) {
        const middle = (low + high + 1) >> 1;
        if (some[middle].at <= at) low = middle; else high = middle - 1;
    }
    return some[low];
}

// ---- a recording

export class Replay {
    // Of words over two fresh memories of so many places. With `goOn` a refused word is skipped, else the recording ends there.
    constructor(card, words, places, goOn, limits = LIMITS) {
        card.lend(new Uint8Array(0), places);
        Object.assign(this, { card, words, goOn, effort: limits.effort, budget: limits.budget, near: limits.near });
        Object.assign(this, { at: 0, end: 0, sum: 0, refused: 0, stopped: false, top: 0, passing: null });
        this.refusal = new Uint8Array(words.length); // what each word was told
        this.passed = new Uint32Array(words.length);
        this.records = []; // the record before every RECORDS-th word
        this.lines = new Map(); // the line length that an INIT sets, by its data
        this.shelf = new Shelf(card, limits.block);
        this.states = [{ at: 0, record: card.record.slice() }];
        this.rows = {};
    }

    // Takes one word where the card stands, and answers how much effort that was.
    take(k) {
        const { card, words, rows, shelf } = this, word = words[k], draws = drawsIn(commandOf(word));
        if (draws) rowsOf(word, card.record, card.fields, rows);
        const refusal = card.step(word);
        this.told = refusal;
        if (!draws || refusal || rows.low > rows.high) return 1;
        const { record, fields } = card, line = record[fields.line];
        if (record[fields.hcontrol] & (I_ENABLE | Z_ENABLE)) shelf.touch(rows.low * line, (rows.high + 1) * line);
        return 1 + rows.area / AREA;
    }

    // Runs the recording once, to its end, its first refused word or where `tick` stops it, and keeps what each word was told, and states.
    async survey(tick) {
        const { card, words } = this, n = words.length;
        let since = 0, work = 0;
        for (let k = 0; k < n; k++) {
            if (work >= 1 << 12) {
                work = 0;
                if (!await tick(k, n)) { this.stopped = true; break; }
            }
            if (k % RECORDS === 0) this.records.push(card.record.slice());
            const effort = this.take(k);
            since += effort;
            work += effort;
            this.refusal[k] = this.told;
            if (this.told) {
                this.refused++;
                if (!this.goOn) break;
            } else {
                this.passed[k] = card.passed;
                this.sum += card.passed;
                if (commandOf(words[k]) === INIT) this.lines.set(dataOf(words[k]), card.record[card.fields.line]);
            }
            this.at = this.end = k + 1;
            if (since >= this.effort) { since = 0; this.keep(); }
        }
        this.keep();
        this.look();
    }

    keep() {
        this.grow();
        this.shelf.keep(this.at);
        this.states.push({ at: this.at, record: this.card.record.slice() });
        while (this.shelf.bytes > this.budget && this.states.length > 2) {
            this.states = this.states.filter((state, k) => k % 2 === 0);
            this.shelf.thin(this.states);
            this.effort *= 2;
        }
    }

    // The last state that is not after `goal`.
    stateAt(goal) {
        const state = latest(this.states, goal), { passing } = this;
        return passing && state.at < passing.at && passing.at <= goal ? passing : state;
    }

    // Goes to where `n` words were taken, by the last state before it; `tick` may stop it on the way.
    async seek(n, tick) {
        const { card, shelf } = this, goal = Math.max(0, Math.min(this.end, n)), state = this.stateAt(goal);
        if (goal < this.at || this.at < state.at) {
            shelf.restore(state.at);
            card.record.set(state.record);
            this.at = state.at;
        }
        const from = this.at, near = goal - this.near;
        let work = 0;
        while (this.at < goal) {
            if (work >= 1 << 12) {
                work = 0;
                if (!await tick(this.at - from, goal - from)) return false;
            }
            if (this.at === near && near - from > this.near) this.pass();
            work += this.take(this.at);
            this.at++;
        }
        return true;
    }

    // Keeps this state in passing, in place of the one before.
    pass() {
        this.shelf.drop();
        this.shelf.keep(this.at, true);
        this.passing = { at: this.at, record: this.card.record.slice() };
    }

    // Calls `visit(k, record before it)` for the words from `from` up to `to`, as the recording ran.
    walk(from, to, visit) {
        const { card, words, records } = this, block = Math.min(Math.floor(from / RECORDS), records.length - 1);
        if (block < 0) return;
        card.walk.set(records[block]);
        for (let k = block * RECORDS; k < to; k++) {
            if (k >= from) visit(k, card.walk);
            card.walkOn(words[k]);
        }
    }

    // ---- the picture

    get line() { return this.card.record[this.card.fields.line]; }

    // As many rows as anything was drawn in, in the line length of the moment.
    get height() { return Math.ceil(this.top / this.line); }

    // Looks in what changed for the highest place that is not as it was at the start.
    grow() {
        const { i, z, places } = this.card, { loaded, block } = this.shelf;
        for (let b = loaded.length - 1; b >= 0 && (b + 1) * block > this.top; b--) {
            if (loaded[b]) continue;
            for (let p = Math.min(places, (b + 1) * block) - 1; p >= b * block && p >= this.top; p--) {
                if (i[p] !== FRESH_I || z[p] !== FRESH_Z) { this.top = p + 1; return; }
            }
        }
    }

    // Least and greatest I and Z of the places that are not as they were at the start, and the box around them.
    look() {
        const { i, z } = this.card, { loaded, fresh, block } = this.shelf, line = this.line, end = this.top;
        const seen = { places: 0, iLow: 65535, iHigh: 0, zLow: 65535, zHigh: 0, left: Infinity, right: -1, bottom: Infinity, top: -1 };
        for (let b = 0; b * block < end; b++) {
            if (loaded[b] === fresh) continue;
            const from = b * block, to = Math.min(end, from + block);
            for (let p = from, x = from % line, y = Math.floor(from / line); p < to; p++) {
                if (i[p] !== FRESH_I || z[p] !== FRESH_Z) {
                    seen.places++;
                    if (i[p] < seen.iLow) seen.iLow = i[p];
                    if (i[p] > seen.iHigh) seen.iHigh = i[p];
                    if (z[p] !== FRESH_Z) {
                        if (z[p] < seen.zLow) seen.zLow = z[p];
                        if (z[p] > seen.zHigh) seen.zHigh = z[p];
                    }
                    if (x < seen.left) seen.left = x;
                    if (x > seen.right) seen.right = x;
                    if (y < seen.bottom) seen.bottom = y;
                    if (y > seen.top) seen.top = y;
                }
                if (++x === line) { x = 0; y++; }
            }
        }
        this.seen = seen;
    }
}
