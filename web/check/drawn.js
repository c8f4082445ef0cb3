// usage: node drawn.js LIST VECTORS: the module draws what the drawing program draws. LIST has lines `RECORDING<tab>WHAT draw PRINTS`. VECTORS is
// crates/vectors: its streams are held to the lines of its `stdout`, which the proved program `vectors` prints too: first lines and checksums, over
// rows and over tiles.
import fs from 'node:fs';
import path from 'node:path';
import { newCard, read, expect, drawn, drawnTiled, TOO_LONG } from './kit.js';

const [, , list, vectors] = process.argv, card = await newCard();

let recordings = 0;
for (const row of fs.readFileSync(list, 'utf8').split('\n').filter(Boolean)) {
    const [recording, expected] = row.split('\t'), want = fs.readFileSync(expected, 'latin1');
    drawn(card, read(recording)).forEach((got, k) => {
        expect(got === want, recording, k ? 'by run' : 'by step', 'is drawn otherwise:', got.split('\n')[0], 'and not', want.split('\n')[0]);
    });
    recordings++;
}
expect(recordings > 500, 'too few recordings');

// FNV-1a of 64 bits, in two halves
function checksum(text) {
    let low = 0x84222325, high = 0xcbf29ce4;
    for (let k = 0; k < text.length; k++) {
        low = (low ^ text.charCodeAt(k)) >>> 0;
        const carry = Number(BigInt(low) * 0x1b3n >> 32n), old = low;
        low = Math.imul(low, 0x1b3) >>> 0;
        high = (Math.imul(high, 0x1b3) + carry + (old << 8)) >>> 0;
    }
    return high.toString(16).padStart(8, '0') + low.toString(16).padStart(8, '0');
}

// how many streams there are, in two bytes; for each the length of its name, its own length in two bytes, the name and the stream
const packed = read(path.join(vectors, 'data/streams')), lines = fs.readFileSync(path.join(vectors, 'stdout'), 'utf8').split('\n');
const count = packed[0] * 256 + packed[1];
let at = 2;
for (let k = 0; k < count; k++) {
    const named = packed[at], size = packed[at + 1] * 256 + packed[at + 2], name = String.fromCharCode(...packed.subarray(at + 3, at + 3 + named));
    at += 3 + named;
    const stream = packed.subarray(at, at + size), tiled = checksum(drawnTiled(card, stream));
    for (const got of drawn(card, stream)) {
        const head = `${name}: ${got.split('\n')[0]}`, line = got === TOO_LONG ? head : `${head}, text ${checksum(got)}, tiled ${tiled}`;
        expect(line === lines[k], 'the vector', line, 'is not', lines[k]);
    }
    at += size;
}
expect(count > 800 && at === packed.length, 'the vectors are not all read');
console.log(`web: ${recordings} recordings and ${count} vectors are drawn by step and by run as draw draws them`);
