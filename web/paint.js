// Memories as colours: I in greys from its least to its greatest number, Z by a ramp from near (light, warm) to far (dark, cold), and where two
// pictures differ. Places that are as they were at the start stay clear, so that they are apart from every colour.
import { FRESH_I, FRESH_Z } from './card.js';
import { difference } from './questions.js';

const mixed = (stops, k) => {
    const at = k / 255 * (stops.length - 1), from = Math.min(stops.length - 2, Math.floor(at));
    return stops[from].map((v, c) => Math.round(v + (at - from) * (stops[from + 1][c] - v)));
};
const packed = ([r, g, b]) => (255 << 24 | b << 16 | g << 8 | r) >>> 0; // as the bytes of ImageData lie
const ramp = stops => Uint32Array.from({ length: 256 }, (_, k) => packed(mixed(stops, k)));

export const RAMPS = {
    i: ramp([[38, 38, 42], [255, 255, 255]]),
    z: ramp([[255, 246, 200], [254, 196, 112], [236, 120, 84], [178, 58, 106], [96, 40, 120], [38, 30, 84]]),
};
// unlike in I, in Z, in both; and a pixel that is drawn alike in both pictures
export const UNLIKE = [0, packed([255, 170, 40]), packed([70, 170, 255]), packed([255, 72, 96])], ALIKE = packed([122, 128, 138]);

// The part of a picture that a view shows: `columns` by `rows` cells, of which each stands for `stride` by `stride` pixels; (x, y) is the lowest pixel
// at the left, and the topmost row comes first. Of a cell of several pixels the first that was touched is shown.
export function paint(kind, replay, view, levels) {
    const { x: left, y: bottom, columns, rows, stride } = view, out = new Uint32Array(columns * rows);
    const { i, z, places } = replay.card, line = replay.line, memory = kind === 'z' ? z : i, colours = RAMPS[kind];
    const low = kind === 'z' ? levels.zLow : levels.iLow, high = kind === 'z' ? levels.zHigh : levels.iHigh, by = high > low ? 255 / (high - low) : 0;
    const shown = Math.min(columns, Math.ceil((line - left) / stride));
    for (let r = 0, row = 0; r < rows; r++, row += columns) {
        const y = bottom + (rows - 1 - r) * stride;
        for (let c = 0; c < shown; c++) {
            const p = touched(i, z, places, line, left + c * stride, y, stride);
            if (p < 0 || (kind === 'z' && z[p] === FRESH_Z)) continue;
            const level = by ? (memory[p] - low) * by : 255;
            out[row + c] = colours[level < 0 ? 0 : level > 255 ? 255 : level | 0];
        }
    }
    return out;
}

// The first place of a cell that is not as it was at the start; -1 for none.
function touched(i, z, places, line, x, y, stride) {
    const right = Math.min(line, x + stride);
    for (let v = y; v < y + stride; v++) {
        const row = v * line, end = Math.min(places, row + right);
        for (let p = row + x; p < end; p++) if (i[p] !== FRESH_I || z[p] !== FRESH_Z) return p;
    }
    return -1;
}

// The same of the difference of two pictures.
export function paintDifference(one, two, view) {
    const { x: left, y: bottom, columns, rows, stride } = view, out = new Uint32Array(columns * rows), width = Math.max(one.line, two.line);
    const { i, z, places } = one.card, line = one.line;
    for (let r = 0, o = 0; r < rows; r++) {
        const y = bottom + (rows - 1 - r) * stride;
        for (let c = 0; c < columns; c++, o++) {
            const x = left + c * stride;
            let unlike = 0;
            for (let v = y; v < y + stride; v++) for (let h = x; h < Math.min(width, x + stride); h++) unlike |= difference(one, two, h, v);
            if (unlike) out[o] = UNLIKE[unlike];
            else if (x < line && touched(i, z, places, line, x, y, stride) >= 0) out[o] = ALIKE;
        }
    }
    return out;
}
