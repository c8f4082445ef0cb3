// usage: node asked.js DIR RECORDING..: what the page asks of the card beside drawing, held to what the programs print. DIR has for each recording
// NAME.rec the files NAME.rec.list and NAME.rec.trace, what `list` and `trace` print of it, and NAME.rec.X.Y.watch, what `trace X Y` does; DAMAGED.rec with DAMAGED.good and DAMAGED.said, what `mend` makes of them; and
// `overdraw`, what that program prints where the files 000, 001 and on stand in `overdrawn/`.
import fs from 'node:fs';
import path from 'node:path';
import { newCard, read, expect, stepped, goOn, chance, PLACES } from './kit.js';
import { digits, commandOf, meaning, NAMES, PTRN, INIT } from '../decode.js';
import { Replay, wordsOf, placesFor } from '../replay.js';
import { watch, tally, differences, partingOf, course } from '../questions.js';

const [, , dir, ...recordings] = process.argv;
const inside = list => ArrayBuffer.isView(list) ? Buffer.from(list.buffer, list.byteOffset, list.byteLength) : Buffer.from(Float64Array.from(list).buffer);
const alike = (a, b) => inside(a).equals(inside(b)); // two typed arrays of one type, or two lists
expect(recordings.length > 2, 'too few recordings');

async function replayOf(bytes, { places = PLACES, on = false, limits } = {}) {
    const card = await newCard(), { refusal, words } = wordsOf(card, bytes, on), replay = new Replay(card, words, places, on, limits);
    await replay.survey(goOn);
    return { replay, refusal };
}

// ---- words as `list` prints them

const line = (w, k) => `${digits(w)} # ${String(k).padStart(7, '0')} ${NAMES[commandOf(w)].padEnd(4)} ${digits(w).slice(1)}\n`;

for (const recording of recordings) {
    const card = await newCard(), { words } = wordsOf(card, read(recording), false);
    const text = Array.from(words, line).join('');
    expect(text === fs.readFileSync(path.join(dir, `${path.basename(recording)}.list`), 'latin1'), recording, 'has other words than list prints');
}

// ---- what words mean, their numbers and counts, and the words that have a pixel, as `trace` prints them

// What the page says of a word that `trace` gives this meaning; which of how many parameters it is, the page says in its own way.
const SAID = {
    gouraud: /^completes a Gouraud triangle/, constant: /^completes a constant triangle/, line0: /^completes a line mode 0 segment/,
    line1: /^completes a line mode 1 segment/, line2: /^completes a line mode 2 segment/, strip: /^opens a strip/, fan: /^opens a fan/, line: /^opens a line/,
    start: /^(line length \d+,|a start that)/, intensity: /^intensity/, depth: /^depth/, row: /^row/, pixelI: /^a pixel of the picture, I/,
    pixelZ: /^a pixel of the picture, Z/, load: /^(opens a region to memory|IMG: (first|second) corner [xy])/,
    save: /^(opens a region from memory|IMG: (first|second) corner [xy])/, reserved: /^reserved/, unmodelled: /not modelled/,
    nothing: /^(second vertex of|moves the line on unseen|a parameter that nothing awaits|no subcommand)/,
};
const TRACED = 1048576; // the places that trace has
let meant = 0, hits = 0;
for (const recording of recordings) {
    const { replay } = await replayOf(read(recording), { places: TRACED }), { card, words } = replay, { fields, walk } = card, base = path.basename(recording);
    const lines = fs.readFileSync(path.join(dir, `${base}.trace`), 'latin1').split('\n').slice(0, -1);
    expect(lines.length === words.length, recording, 'is traced to another word');
    card.reset(card.walkAt);
    lines.forEach((l, k) => {
        const [, , , , , name, share, refusal, passed] = l.split(/ +/), before = walk.slice();
        card.walkOn(words[k]);
        const said = meaning(words[k], before, fields, commandOf(words[k]) === INIT ? walk[fields.line] : 0).text;
        const named = SAID[name] ? SAID[name].test(said) : said.startsWith(`${name}${share.startsWith('0/') ? ', with ' + share[2] : ': '}`);
        expect(named && Number(refusal) === replay.refusal[k] && Number(passed) === replay.passed[k], recording, 'word', k, 'is', l, 'and the page says', said);
        meant++;
    });
    for (const f of fs.readdirSync(dir).filter(name => name.startsWith(`${base}.`) && name.endsWith('.watch'))) {
        const [x, y] = f.slice(base.length + 1).split('.').map(Number), told = fs.readFileSync(path.join(dir, f), 'latin1').split('\n').slice(0, -1);
        const found = await watch(replay, y * replay.line + x, goOn);
        const text = found.map(hit => `${digits(words[hit.word])} ${hit.word} ${[...hit.was, ...hit.now].join(' ')}`).join('\n');
        expect(text === told.map(l => l.split(/ +/)).map(w => [w[0], Number(w[2]), ...w.slice(9).map(Number)].join(' ')).join('\n'), recording, 'pixel', x, y, 'has other words');
        hits += found.length;
    }
}
expect(meant > 200 && hits > 20, 'too few words are traced:', meant, 'and', hits, 'at pixels');

// ---- any position, by the states that are kept, is the picture that so many words draw from reset

let positions = 0;
async function moves(bytes, options, tries, seed) {
    const { replay } = await replayOf(bytes, options), { card, words } = replay, other = await newCard(), random = chance(seed);
    other.lend(new Uint8Array(0), card.places);
    const some = [0, replay.end, ...Array.from({ length: tries }, () => random(replay.end + 1))];
    const goals = some.flatMap(g => [g, Math.max(0, g - 1), Math.max(0, g - 4)]);
    const pictures = new Map();
    let sum = 0;
    for (let k = 0; k <= replay.end; k++) {
        if (goals.includes(k)) pictures.set(k, { i: other.i.slice(), z: other.z.slice(), record: other.record.slice() });
        if (k === replay.end) break;
        const refusal = other.step(words[k]);
        if (!refusal) sum += other.passed;
        expect(refusal === replay.refusal[k] && (refusal || other.passed === replay.passed[k]), 'a survey tells something else of word', k);
    }
    expect(sum === replay.sum, 'a survey has another sum');
    // to and fro, and from each place some steps back
    for (const goal of goals) {
        await replay.seek(goal, goOn);
        const want = pictures.get(goal);
        const same = ['i', 'z', 'record'].every(part => alike(card[part], want[part]));
        expect(replay.at === goal && same, 'the picture at word', goal, 'is another one');
        positions++;
    }
    return replay;
}
for (const recording of recordings) {
    await moves(read(recording), {}, 20, 1);
    // states after every few words, small blocks, and room for few of them
    await moves(read(recording), { limits: { effort: 8, block: 256, budget: 200000, near: 3 } }, 40, 2);
}
const seeds = fs.readdirSync(dir).filter(f => /^\d+\.rec$/.test(f)).slice(0, 60);
for (const f of seeds) await moves(read(path.join(dir, f)), { on: true, limits: { effort: 64, block: 512, budget: 400000, near: 5 } }, 8, 3);
expect(seeds.length === 60, 'too few streams');

// ---- memories as large as needed: whatever more is lent, nothing else is drawn

for (const recording of [...recordings, ...seeds.map(f => path.join(dir, f))]) {
    const bytes = read(recording), card = await newCard(), { words } = wordsOf(card, bytes, true), places = await placesFor(card, words, true, goOn);
    const few = (await replayOf(bytes, { on: true, places })).replay, many = (await replayOf(bytes, { on: true, places: places + 70000 })).replay;
    const same = name => alike(few.card[name], many.card[name].subarray(0, places));
    expect(few.sum === many.sum && few.top === many.top && same('i') && same('z'), recording, 'needs more memory');
}

// ---- a pixel: over all places, the words that passed are as many as the card counted, each as often, and the last numbers are the picture's

let total = 0, drawing = 0, stores = 0;
async function watched(recording) {
    const { replay } = await replayOf(read(recording)), { card, passed } = replay, left = Int32Array.from(passed), end = [card.i.slice(), card.z.slice()];
    await replay.seek(replay.end >> 1, goOn); // what is shown plays no part, and stays
    const shown = [card.i.slice(), card.z.slice(), card.record.slice()];
    for (let place = 0; place < PLACES; place++) {
        let last = [0, 65535];
        for (const hit of await watch(replay, place, goOn)) {
            expect(alike(hit.was, last), recording, 'a pixel changes between two words');
            last = hit.now;
            if (hit.stored) { stores++; continue; }
            left[hit.word]--;
            total++;
        }
        expect(last[0] === end[0][place] && last[1] === end[1][place], recording, 'the last word at place', place, 'left other numbers');
    }
    expect(left.every(n => n === 0), recording, 'words passed at other places than they counted');
    expect(alike(shown[0], card.i) && alike(shown[1], card.z) && alike(shown[2], card.record), recording, 'asking changed the picture');
    drawing += passed.reduce((n, p) => n + (p > 0), 0);
}
for (const recording of recordings) await watched(recording);
// two random streams with pictures among them
let pictures = 0;
for (const f of seeds) {
    const { replay } = await replayOf(read(path.join(dir, f)));
    const pixels = replay.words.subarray(0, replay.end).filter(w => commandOf(w) === PTRN).length;
    if (pictures === 2 || pixels < 20 || replay.end > 700 || replay.sum < 100) continue;
    await watched(path.join(dir, f));
    pictures++;
}
expect(total > 1000 && stores > 20 && pictures === 2, 'too few pixels:', total, 'passed and', stores, 'stored');

// ---- figures by kind, as `overdraw` prints them

const lines = fs.readFileSync(path.join(dir, 'overdraw'), 'latin1').split('\n').slice(1), names = ['gouraud', 'constant', 'line0', 'line1', 'line2'];
let reported = 0;
for (const file of fs.readdirSync(path.join(dir, 'overdrawn')).sort()) {
    const bytes = read(path.join(dir, 'overdrawn', file)), told = lines.filter(l => l.startsWith(`${file} `)).map(l => l.trim().split(/ +/));
    if (!told.length || told[0][1] === 'too') continue;
    const { replay } = await replayOf(bytes), { kinds } = await tally(replay, goOn);
    names.forEach((name, k) => {
        const [, , figures, offered, passed, hidden] = told.find(t => t[1] === name).map(Number), got = kinds[k];
        expect(got.figures === figures && got.offered === offered && got.passed === passed && got.hidden === hidden, file, name, 'is counted otherwise');
    });
    reported++;
}
expect(reported > 3, 'too few reports');

// ---- damaged recordings: what mend writes and says, and going on draws the same

let mended = 0;
for (const f of fs.readdirSync(dir).filter(name => name.endsWith('.good'))) {
    const name = path.join(dir, f.slice(0, -5)), bytes = read(`${name}.rec`), card = await newCard(), m = card.mend(bytes);
    const all = wordsOf(await newCard(), bytes, true).words;
    const said = m.indices.map((k, j) => `refusal ${m.numbers[j]} ${line(all[k], k)}`).join('')
        + `kept ${all.length - m.indices.length} dropped ${m.indices.length} cut ${m.cut} cleared ${m.cleared}\n`;
    expect(m.refusal === 0 && alike(m.bytes, read(`${name}.good`)), name, 'is mended to something else');
    expect(said === fs.readFileSync(`${name}.said`, 'latin1'), name, 'is told otherwise');
    const { replay } = await replayOf(bytes, { on: true }), good = await newCard();
    good.lend(m.bytes, PLACES);
    const ended = stepped(good);
    const same = ['i', 'z', 'record'].every(part => alike(good[part], replay.card[part]));
    expect(ended.refusal === 0 && ended.sum === replay.sum && same, name, 'going on draws something else');
    expect(alike(Array.from(replay.refusal.entries()).filter(([, n]) => n).map(([k]) => k), m.indices), name, 'other words are refused');
    mended++;
}
expect(mended > 20, 'too few damaged recordings');

// ---- two recordings

{
    const bytes = read(recordings.find(r => r.endsWith('scene.rec'))), other = bytes.slice();
    other[101] ^= 1;
    const a = (await replayOf(bytes)).replay, b = (await replayOf(other, { on: true })).replay, found = await differences(a, b, goOn);
    let unlike = 0;
    for (let p = 0; p < PLACES; p++) if (a.card.i[p] !== b.card.i[p] || a.card.z[p] !== b.card.z[p]) unlike++;
    expect(unlike > 0 && found.either === unlike, 'the two pictures differ in', unlike, 'and not', found.either);
    const partings = [b.words, a.words, a.words.subarray(0, 7)].map(others => partingOf(a.words, others));
    expect(partings[0] === 40 && partings[1] === null && partings[2] === 7, 'words part elsewhere:', partings);
    expect((await differences(a, a, goOn)).either === 0, 'a picture differs from itself');
    const parts = course(a, 7);
    expect(parts.passed.reduce((x, y) => x + y, 0) === a.sum, 'the course has another sum');
}

console.log(`web: ${positions} positions are as run from reset; ${drawing} words passed ${total} pixels, each told at its place, and ${stores} were stored`);
console.log(`web: ${meant} words mean what trace says, and ${hits} have the pixels that it says`);
console.log(`web: ${reported} recordings are counted as overdraw counts, ${mended} are mended as mend does`);
