// What people ask of a recording that was run: which words passed a pixel at a place, what was drawn for nothing, where two pictures differ. The card
// itself answers the first two, on copies of its record; the shown picture is not touched. Long questions are answered in parts: `tick(done, of)`
// lets other work in between, and answers false where the question is dropped.
import { FRESH_I, FRESH_Z } from './card.js';
import { commandOf, dataOf, completedBy, kindOf, KINDS, PTRN, X, PX, TO_MEMORY, DEPTH_TEST } from './decode.js';
import { rowsOf } from './replay.js';

const SLICE = 1 << 12; // words between two ticks

// Lets other work in, which may use the record that walks.
async function pause(card, tick, done, of) {
    const walk = card.walk.slice(), more = await tick(done, of);
    card.walk.set(walk);
    return more;
}

// ---- a pixel

// Which words passed a pixel at a place, or stored one of a picture there, each with what stood there before and after. A word that can draw into the
// place's row is given to a copy of the record whose window is that one pixel, so that the card's own count says whether it passed; then to the
// record that walks, over memories of no places. Answers null where it was dropped.
export async function watch(replay, place, tick) {
    const { card, words, end } = replay, { fields, walk, spare, i, z } = card, hits = [], rows = {};
    let here = [FRESH_I, FRESH_Z];
    card.reset(card.walkAt);
    for (let from = 0; from < end; from += SLICE) {
        if (from && !await pause(card, tick, from, end)) return null;
        const shown = [i[place], z[place]]; // the shown picture lends its place to the question
        [i[place], z[place]] = here;
        for (let k = from; k < Math.min(end, from + SLICE); k++) {
            const word = words[k], command = commandOf(word);
            if (command === X || command === PX || command === PTRN) {
                const line = walk[fields.line], x = place % line, y = (place - x) / line;
                if (reaches(rowsOf(word, walk, fields, rows), walk, fields, command, x, y)) {
                    const was = [i[place], z[place]];
                    spare.set(walk);
                    if (command !== PTRN) spare[fields.left] = spare[fields.right] = x, spare[fields.top] = spare[fields.bottom] = y;
                    const refused = card.take(card.spareAt, word, card.count);
                    if (!refused && (command === PTRN || card.passed)) hits.push({ word: k, stored: command === PTRN, was, now: [i[place], z[place]] });
                }
            }
            card.walkOn(word);
        }
        here = [i[place], z[place]];
        [i[place], z[place]] = shown;
    }
    return hits;
}

// A word may draw at a pixel: its rows and the window have it, or the picture's next pixel is there.
function reaches(rows, record, fields, command, x, y) {
    if (y < rows.low || rows.high < y) return false;
    if (command === PTRN) return record[fields.region.way] === TO_MEMORY && record[fields.region.x] === x;
    return record[fields.left] <= x && x <= record[fields.right];
}

// ---- what was drawn for nothing

// Figures and pixels by kind, as document 02's [11] counts them: completed, offered, passed, hidden. What a figure offers is what passes with the depth
// test and both write enables off, asked of a copy of the record; it stores nothing. Answers null where it was dropped.
export async function tally(replay, tick) {
    const { card, words, passed, refusal, end } = replay, { fields, walk, spare } = card;
    const kinds = KINDS.map(name => ({ name, figures: 0, offered: 0, passed: 0, hidden: 0 }));
    let work = 0, pixels = 0;
    card.reset(card.walkAt);
    for (let k = 0; k < end; k++) {
        if (work >= SLICE) {
            work = 0;
            if (!await pause(card, tick, k, end)) return null;
        }
        const word = words[k], command = commandOf(word);
        if (!refusal[k] && command === PTRN) pixels++;
        const figure = !refusal[k] && (command === X || command === PX) && completedBy(walk, fields, dataOf(word));
        if (figure) {
            const kind = kinds[kindOf(figure, walk, fields)];
            spare.set(walk);
            spare[fields.zcontrol] &= ~DEPTH_TEST;
            spare[fields.hcontrol] = 0;
            card.take(card.spareAt, word, card.count);
            const offered = card.passed;
            kind.figures++;
            kind.offered += offered;
            kind.passed += passed[k];
            kind.hidden += offered - passed[k];
            work += offered / 64;
        }
        card.walkOn(word);
        work++;
    }
    return { kinds, pixels };
}

// ---- two recordings

// The first word in which two recordings differ; null where they are the same.
export function partingOf(words, others) {
    const n = Math.min(words.length, others.length);
    for (let k = 0; k < n; k++) if (words[k] !== others[k]) return k;
    return words.length === others.length ? null : n;
}

// The numbers of a pixel in a picture; one outside is as at the start.
export function numbersAt(replay, x, y) {
    const line = replay.line, place = y * line + x;
    if (x < 0 || y < 0 || x >= line || place >= replay.card.places) return { i: FRESH_I, z: FRESH_Z, fresh: true };
    const i = replay.card.i[place], z = replay.card.z[place];
    return { i, z, fresh: i === FRESH_I && z === FRESH_Z };
}

// In how many pixels two pictures differ, in I, in Z and in either, and the box around them. Answers null where it was dropped.
export async function differences(one, two, tick) {
    const width = Math.max(one.line, two.line), height = Math.max(one.height, two.height), rows = Math.max(1, Math.floor((1 << 20) / width));
    const found = { i: 0, z: 0, either: 0, left: Infinity, right: -1, bottom: Infinity, top: -1 };
    for (let y = 0; y < height; y++) {
        if (y % rows === 0 && y && !await tick(y, height)) return null;
        for (let x = 0; x < width; x++) {
            const a = difference(one, two, x, y);
            if (!a) continue;
            found.either++;
            if (a & 1) found.i++;
            if (a & 2) found.z++;
            if (x < found.left) found.left = x;
            if (x > found.right) found.right = x;
            if (y < found.bottom) found.bottom = y;
            if (y > found.top) found.top = y;
        }
    }
    return found;
}

// Whether a pixel differs: 1 in I, 2 in Z, 3 in both, 0 not.
export function difference(one, two, x, y) {
    const a = one.card, b = two.card, l = one.line, m = two.line, p = y * l + x, q = y * m + x;
    const inA = x < l && p < a.places, inB = x < m && q < b.places;
    return ((inA ? a.i[p] : FRESH_I) !== (inB ? b.i[q] : FRESH_I) ? 1 : 0) | ((inA ? a.z[p] : FRESH_Z) !== (inB ? b.z[q] : FRESH_Z) ? 2 : 0);
}

// ---- the whole recording at a glance

// The pixels passed and the words refused in so many equal parts of the recording.
export function course(replay, parts) {
    const n = replay.words.length, passed = new Float64Array(parts), refused = new Uint32Array(parts);
    for (let k = 0; k < replay.end + (replay.end < n ? 1 : 0); k++) {
        const part = Math.floor(k * parts / n);
        passed[part] += replay.passed[k];
        if (replay.refusal[k]) refused[part]++;
    }
    return { passed, refused };
}
