// usage: node long.js KIND FILE: writes a recording for the tests and for timing, the same in every run.
//   long     1 MiB of 419,430 words: small faces and lines all over a picture 1,024 wide, and now and then a picture
//   wide     some figures across the widest line length, 8,192 rows high
//   filled   large triangles, one over the other without a depth test: many pixels a word, and seconds of drawing
//   rubbish  1 MiB of random bytes behind an INIT, so that most words are refused
import fs from 'node:fs';
import { chance } from './kit.js';

const [, , kind, file] = process.argv, random = chance(29), words = [];
const put = (command, data) => words.push(command * 65536 + data);
const modes = (...pairs) => { for (const [aux, ...values] of pairs) { put(14, aux); for (const v of values) put(13, v); } };
const vertex = (command, x, y, i, z) => { put(1, i); put(2, z); put(3, y); put(command, x); };
const FULL = 419430, ON = [[4, 6], [3, 0x40]];

function long() {
    put(15, 0x0800); // line length 1024
    modes(...ON);
    while (words.length < FULL - 400) {
        const x = random(980), y = random(700), i = 40 + random(900), z = random(60000), what = random(20);
        if (what < 12) {
            modes([0, random(2)]);
            vertex(5 + random(2), x, y, i, z);
            for (let k = random(5) + 2; k > 0; k--) vertex(4, x + random(44), y + random(44), i + random(80), z + random(3000));
        } else if (what < 19) {
            const mode = random(3);
            modes([1, mode], [8, 100 + random(600), random(60)], [9, random(65536), random(65536)]);
            vertex(8, x, y, i, z);
            for (let k = random(4) + 1; k > 0; k--) vertex(mode === 2 ? 4 : 11, random(1024), random(740), i, z);
        } else {
            put(9, 0);
            for (const corner of [x, y, x + 9, y + 9]) put(13, corner);
            for (let k = 0; k < 100; k++) put(0, 200 + 5 * k);
        }
    }
    while (words.length < FULL) put(1, random(65536));
}

function wide() {
    put(15, 0x2F00); // line length 8768
    modes(...ON);
    [[0, 0], [8191, 0], [0, 8191]].forEach(([x, y], k) => vertex(k ? 4 : 5, x, y, 100 + (x >> 4), 20000 + y));
    modes([1, 2]);
    vertex(8, 8191, 8191, 65535, 100);
    vertex(4, 0, 4000, 1, 100);
    vertex(4, 8191, 0, 30000, 9);
}

function filled() {
    put(15, 0x0800);
    modes([4, 6]);
    for (let k = 0; k < 6000; k++) {
        modes([0, k % 2]);
        vertex(5, random(1024), random(1024), random(65536), random(65536));
        vertex(4, random(1024), random(1024), random(65536), random(65536));
        vertex(4, random(1024), random(1024), random(65536), random(65536));
    }
}

function packed() {
    const bytes = new Uint8Array(Math.ceil(words.length * 5 / 2));
    words.forEach((w, k) => {
        for (let d = 0; d < 5; d++) {
            const half = 5 * k + d, digit = (w >> (16 - 4 * d)) & 15;
            bytes[half >> 1] |= half & 1 ? digit : digit << 4;
        }
    });
    return bytes;
}

const makers = { long, wide, filled };
if (kind === 'rubbish') {
    const bytes = Uint8Array.from({ length: 1048575 }, () => random(256));
    bytes.set([0xF0, 0, 0]);
    fs.writeFileSync(file, bytes);
} else {
    makers[kind]();
    fs.writeFileSync(file, packed());
}
