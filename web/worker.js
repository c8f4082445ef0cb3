// The worker: it has the cards and does what takes long, so that the page never waits. A message { id, ask, .. } gets an answer { id, answer } or
// { id, error }; long work tells { progress } on the way, and is dropped where the same is asked anew or a message { stop } names it.
import { Card } from './card.js';
import { digits, meaning, reason, commandOf, dataOf, NAMES, INIT } from './decode.js';
import { Replay, wordsOf, placesFor } from './replay.js';
import { watch, tally, partingOf, numbersAt, differences, course } from './questions.js';
import { paint, paintDifference, RAMPS, UNLIKE, ALIKE } from './paint.js';

const PATIENCE = 12, TELLING = 80; // milliseconds between rests, and from one word of progress to the next

let module, layout;
const recordings = { a: null, b: null };

// ---- long work

const jobs = new Map(), channel = new MessageChannel();
let waiting = [];
channel.port1.onmessage = () => { const all = waiting; waiting = []; for (const go of all) go(); };
const rest = () => new Promise(go => { waiting.push(go); channel.port2.postMessage(0); });

// Does `work` as the job of this name, in place of any other of the name. Its `tick(done, of)` lets messages in, tells how far it is, and answers
// whether it may go on; `what` says what it does.
async function job(name, what, work) {
    const mine = {}, started = performance.now();
    let rested = started, told = started;
    jobs.set(name, mine);
    const tick = async (done, of) => {
        const now = performance.now();
        if (now - rested > PATIENCE) {
            if (now - told > TELLING) { told = now; postMessage({ progress: { name, what, done, of } }); }
            await rest();
            rested = performance.now();
        }
        return jobs.get(name) === mine;
    };
    const answer = await work(tick);
    const dropped = jobs.get(name) !== mine;
    if (!dropped) jobs.delete(name);
    postMessage({ progress: { name, over: true } });
    return dropped ? { dropped } : { dropped, answer };
}

// ---- recordings

// Runs a recording and keeps it as the first or the second. `places` is how many places the memories have, 0 for as many as it needs. One that is
// stopped by hand is kept as far as it came.
const turns = { a: 0, b: 0 };
async function open({ slot, name, bytes, places, goOn }) {
    const started = performance.now(), turn = ++turns[slot], opening = `open ${slot}`;
    for (const question of ['watch', 'tally', 'differ']) jobs.delete(question);
    const card = await Card.of(module, layout), { refusal, words } = wordsOf(card, bytes, goOn);
    const needed = places || (await job(opening, 'reading', tick => placesFor(card, words, goOn, tick))).answer;
    let replay = null;
    if (turn === turns[slot] && needed !== undefined) {
        replay = new Replay(card, words, needed, goOn);
        await job(opening, 'drawing', tick => replay.survey(tick));
    }
    if (turn !== turns[slot]) return { dropped: true }; // another was opened meanwhile
    if (!replay) throw new Error('stopped before anything was drawn');
    recordings[slot] = { name, bytes, refusal, replay, milliseconds: performance.now() - started };
    return summary(slot);
}

// What is said of a recording: how it ended, and what its picture has.
function summary(slot) {
    const { name, bytes, refusal, replay, milliseconds } = recordings[slot], { words, end, refusal: told, sum, refused, stopped, seen, goOn, card } = replay;
    const stop = !goOn && end < words.length && told[end] ? end : null;
    return {
        name, size: bytes.length, words: words.length, end, sum, refused, stopped, seen, milliseconds,
        places: card.places, line: replay.line, height: replay.height,
        damaged: refusal ? { number: refusal, text: reason(refusal) } : null,
        refusedAt: stop === null ? null : { word: stop, number: told[stop], text: rowsAt(replay, [stop])[0].reason },
    };
}

// ---- words

function row(replay, k, record) {
    const { words, refusal, passed, lines, end, card } = replay, word = words[k], number = k <= end ? refusal[k] : 0;
    const ran = k < end || (k === end && number !== 0);
    const said = record && ran ? meaning(word, record, card.fields, commandOf(word) === INIT && !number ? lines.get(dataOf(word)) : 0)
        : { name: NAMES[commandOf(word)], data: dataOf(word).toString(16).toUpperCase().padStart(4, '0'), text: 'not run', more: '' };
    return { k, digits: digits(word), ...said, passed: passed[k], refusal: number, reason: number ? reason(number, word, record, card.fields) : '' };
}

// Rows of the words with these indices.
function rowsAt(replay, indices) {
    const rows = [], { words, end } = replay;
    for (let j = 0; j < indices.length;) {
        // neighbours are walked together
        let e = j + 1;
        while (e < indices.length && indices[e] === indices[e - 1] + 1) e++;
        const from = indices[j], to = Math.min(indices[e - 1] + 1, words.length), known = Math.min(to, end + 1);
        if (from < known) replay.walk(from, known, (k, record) => rows.push(row(replay, k, record)));
        for (let k = Math.max(from, known); k < to; k++) rows.push(row(replay, k, null));
        j = e;
    }
    return rows;
}

// ---- pictures

// The levels are those of the whole recording, so that no colour changes on the way; of two recordings, those of both.
function levels() {
    const all = [recordings.a, recordings.b].filter(Boolean).map(r => r.replay.seen);
    const least = name => Math.min(...all.map(s => s[name])), most = name => Math.max(...all.map(s => s[name]));
    return { iLow: least('iLow'), iHigh: most('iHigh'), zLow: least('zLow'), zHigh: most('zHigh') };
}

function paintPane({ slot, kind, view }) {
    if (kind === 'unlike') return paintDifference(recordings.a.replay, recordings.b.replay, view);
    return paint(kind, recordings[slot].replay, view, levels());
}

// ---- what can be asked

const asks = {
    async start(data) {
        module = await WebAssembly.compile(data.module);
        layout = data.layout;
        return { ramps: RAMPS, unlike: UNLIKE, alike: ALIKE };
    },
    open,
    // the same recording under another choice
    again: ({ slot, places, goOn }) => open({ ...recordings[slot], slot, places, goOn }),
    close({ slot }) { recordings[slot] = null; },
    async show({ at }) {
        const { replay } = recordings.a, other = recordings.b && recordings.b.replay;
        const { dropped } = await job('show', 'replaying', async tick => await replay.seek(at, tick) && other && await other.seek(at, tick));
        if (dropped) return { dropped, stands: replay.at };
        const width = Math.max(replay.line, other ? other.line : 0), height = Math.max(replay.height, other ? other.height : 0);
        return { at, width, height, levels: levels(), word: replay.at ? rowsAt(replay, [replay.at - 1])[0] : null };
    },
    paint({ panes }) { return panes.map(pane => ({ pane, pixels: paintPane(pane) })); },
    rows: ({ slot, indices }) => rowsAt(recordings[slot].replay, indices),
    pixel: ({ x, y }) => ['a', 'b'].map(slot => recordings[slot] && numbersAt(recordings[slot].replay, x, y)),
    async watch({ x, y }) {
        const { replay } = recordings.a, place = y * replay.line + x;
        if (x < 0 || y < 0 || x >= replay.line || place >= replay.card.places) return { hits: [], outside: true };
        const { dropped, answer } = await job('watch', 'asking each word', tick => watch(replay, place, tick));
        return dropped ? { dropped } : { hits: answer };
    },
    async tally({ slot }) {
        const { dropped, answer } = await job('tally', 'counting', tick => tally(recordings[slot].replay, tick));
        return dropped ? { dropped } : answer;
    },
    async differ() {
        const a = recordings.a.replay, b = recordings.b.replay, { dropped, answer } = await job('differ', 'comparing', tick => differences(a, b, tick));
        if (dropped) return { dropped };
        const parting = partingOf(a.words, b.words), partly = parting === null ? [] : [a, b].map(r => rowsAt(r, [parting])[0] || null);
        return { ...answer, parting, partly, ends: [a.at, b.at] };
    },
    course: ({ parts }) => course(recordings.a.replay, parts),
    // the next word, forth or back, that passed a pixel or was refused
    find({ from, way, what }) {
        const { replay } = recordings.a, told = what === 'refused' ? replay.refusal : replay.passed, last = Math.min(replay.words.length, replay.end + 1);
        for (let k = from; 0 <= k && k < last; k += way) if (told[k]) return k;
        return null;
    },
    async png({ slot, kind }) {
        const { replay } = recordings[slot], width = kind === 'unlike' ? Math.max(replay.line, recordings.b.replay.line) : replay.line;
        const height = Math.max(1, replay.height, kind === 'unlike' ? recordings.b.replay.height : 0);
        const pixels = paintPane({ slot, kind, view: { x: 0, y: 0, columns: width, rows: height, stride: 1 } });
        const canvas = new OffscreenCanvas(width, height);
        canvas.getContext('2d').putImageData(new ImageData(new Uint8ClampedArray(pixels.buffer), width, height), 0, 0);
        return canvas.convertToBlob({ type: 'image/png' });
    },
    async mend({ slot }) {
        const { bytes } = recordings[slot], card = await Card.of(module, layout), mended = card.mend(bytes);
        return { ...mended, kept: Math.floor(2 * bytes.length / 5) - mended.indices.length };
    },
};

onmessage = async ({ data }) => {
    if (data.stop) { jobs.delete(data.stop); return; }
    try {
        const answer = await asks[data.ask](data), sent = [];
        if (data.ask === 'paint') for (const { pixels } of answer) sent.push(pixels.buffer);
        postMessage({ id: data.id, answer }, sent);
    } catch (error) {
        const short = error instanceof RangeError; // memory.grow, and arrays
        postMessage({ id: data.id, error: short ? 'this browser gives no more memory: choose a smaller one' : error.message });
    }
};
