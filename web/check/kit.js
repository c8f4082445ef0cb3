// What the checks share: cards of the built module, what `draw` prints of one, and how a check fails.
import fs from 'node:fs';
import { Card } from '../card.js';

const built = new URL('../../target/web/', import.meta.url);
export const layout = JSON.parse(fs.readFileSync(new URL('layout.json', built), 'utf8'));
export const module = await WebAssembly.compile(fs.readFileSync(new URL('dextolumen.wasm', built)));
export const newCard = () => Card.of(module, layout);

// As the drawing program has it.
export const PLACES = 8192, LIMIT = 8192, TOO_LONG = 'too long\n';

export const read = path => new Uint8Array(fs.readFileSync(path));

export function expect(holds, ...what) {
    if (holds) return;
    console.error(`web: ${what.join(' ')}`);
    process.exit(1);
}

// What `draw` prints: how a run ended, and each place with I not 0.
export function printed(card, { index, refusal, sum }) {
    const line = card.record[card.fields.line], out = [`words ${index} refusal ${refusal} passed ${sum}\n`];
    for (let p = 0; p < PLACES; p++) if (card.i[p]) out.push(`${p % line} ${Math.floor(p / line)} ${card.i[p]} ${card.z[p]}\n`);
    return out.join('');
}

// A recording word by word, until one is refused.
export function stepped(card) {
    const { refusal, words } = card.words(), ended = { refusal, index: 0, sum: 0 };
    for (; !ended.refusal && ended.index < words.length; ended.index++) {
        ended.refusal = card.step(words[ended.index]);
        if (ended.refusal) break;
        ended.sum += card.passed;
    }
    return ended;
}

// Both ways of drawing a recording, as text.
export function drawn(card, bytes) {
    if (bytes.length > LIMIT) return [TOO_LONG, TOO_LONG];
    card.lend(bytes, PLACES);
    const step = printed(card, stepped(card));
    card.lend(bytes, PLACES);
    return [step, printed(card, card.run())];
}

// And in one call over tiles: places are told as there, whatever pixel lies at them.
export function drawnTiled(card, bytes) {
    if (bytes.length > LIMIT) return TOO_LONG;
    card.lend(bytes, PLACES);
    return printed(card, card.run(true));
}

export const goOn = async () => true;

// A generator of numbers below n, the same in every run.
export function chance(seed) {
    let state = seed >>> 0;
    return n => {
        state = (Math.imul(state, 1664525) + 1013904223) >>> 0;
        return Math.floor(state / 4294967296 * n);
    };
}
