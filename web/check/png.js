// The pixels of a PNG of 8-bit colours with alpha, as browsers write it: its size, and the four numbers of a pixel, row 0 the lowest.
import zlib from 'node:zlib';

export function pixelsOf(png) {
    const width = png.readUInt32BE(16), height = png.readUInt32BE(20), parts = [];
    for (let k = 8; k < png.length;) {
        const size = png.readUInt32BE(k);
        if (png.toString('latin1', k + 4, k + 8) === 'IDAT') parts.push(png.subarray(k + 8, k + 8 + size));
        k += 12 + size;
    }
    const rows = zlib.inflateSync(Buffer.concat(parts)), line = 4 * width, out = Buffer.alloc(line * height);
    for (let y = 0; y < height; y++) for (let x = 0; x < line; x++) {
        const at = y * line + x, a = x < 4 ? 0 : out[at - 4], b = y ? out[at - line] : 0, c = x < 4 || !y ? 0 : out[at - line - 4];
        const near = [a, b, c].map(v => Math.abs(a + b - c - v)), paeth = near[0] <= near[1] && near[0] <= near[2] ? a : near[1] <= near[2] ? b : c;
        out[at] = rows[y * (line + 1) + 1 + x] + [0, a, b, (a + b) >> 1, paeth][rows[y * (line + 1)]];
    }
    const from = (x, y) => (height - 1 - y) * line + 4 * x;
    return { width, height, colours: png[25], at: (x, y) => out.subarray(from(x, y), from(x, y) + 4) };
}
