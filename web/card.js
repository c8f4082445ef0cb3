// The card for JavaScript: the calls of include/dextolumen.h, in the WebAssembly that web/build makes of the proved code. Nothing of the card is
// written here: this file lends memory, passes numbers and reads answers. It runs in a page's worker and in node.
//
// Pointers are places in the module's own memory, and lengths are BigInts, since the proved code takes 64 bits. What is lent lies above
// __heap_base: answers and records first, then the stream, the I memory and the Z memory. The stack lies below, and traps where it is full.

// Calls that answer one number answer this plus the number where they refuse.
const REFUSED = 1n << 63n;

// A fresh picture: I all 0, Z all 65535.
export const FRESH_I = 0, FRESH_Z = 65535;

// Where the record has what the page reads of it: `layout` has the sizes and offsets that the header states, by names such as
// `registers.figure.shape`. Every field is a 16-bit number, so half an offset is an index.
export function fieldsOf(layout) {
    const at = name => {
        if (!(name in layout)) throw new Error(`the header has no ${name}`);
        return layout[name] / 2;
    };
    const vertex = name => ({ x: at(`registers.figure.${name}`) + at('vertex.x'), y: at(`registers.figure.${name}`) + at('vertex.y') });
    const group = (name, ...parts) => Object.fromEntries(parts.map(part => [part, at(`registers.${name}.${part}`)]));
    return {
        size: at('registers'), started: at('registers.started'), line: at('registers.frame.line'),
        ...group('modes', 'pmode', 'lmode', 'zcontrol', 'hcontrol', 'lstatus', 'transparency', 'planes', 'section'),
        ...group('window', 'left', 'top', 'right', 'bottom'),
        ...group('dash', 'foreground', 'background', 'high', 'low'),
        latch: group('latch', 'i', 'z', 'y'),
        ...group('figure', 'shape', 'pair'), first: vertex('first'), second: vertex('second'),
        ...group('parked', 'subcommand', 'came', 'values'),
        region: group('region', 'way', 'x', 'y'),
    };
}

const aligned = n => Math.ceil(n / 16) * 16;

export class Card {
    // A card of its own memory, of a compiled module.
    static async of(module, layout) {
        return new Card(await WebAssembly.instantiate(module, {}), layout);
    }

    constructor(instance, layout) {
        this.calls = instance.exports;
        this.layout = layout;
        this.fields = fieldsOf(layout);
        let at = aligned(this.calls.__heap_base.value);
        const take = size => { const here = at; at = aligned(at + size); return here; };
        this.toldAt = take(layout.told);
        this.endedAt = take(layout.ended);
        this.mendedAt = take(layout.mended);
        this.recordAt = take(layout.registers);
        this.walkAt = take(layout.registers);
        this.spareAt = take(layout.registers);
        this.streamAt = at;
        this.lend(new Uint8Array(0), 0);
    }

    // Makes sure that the module's memory reaches so far.
    reach(end) {
        const memory = this.calls.memory, short = Math.ceil((end - memory.buffer.byteLength) / 65536);
        if (short > 0) memory.grow(short); // throws a RangeError where there is no more
        return memory.buffer;
    }

    // Lends a stream and two memories of so many places, fresh, and resets the record.
    lend(bytes, places) {
        const iAt = aligned(this.streamAt + bytes.length), zAt = aligned(iAt + 2 * places);
        const buffer = this.reach(zAt + 2 * places), size = this.fields.size;
        this.u32 = new Uint32Array(buffer, 0, this.streamAt >> 2);
        new Uint8Array(buffer, this.streamAt, bytes.length).set(bytes);
        this.i = new Uint16Array(buffer, iAt, places);
        this.z = new Uint16Array(buffer, zAt, places);
        this.record = new Uint16Array(buffer, this.recordAt, size); // the card's own
        this.walk = new Uint16Array(buffer, this.walkAt, size); // one that walks along the words beside it
        this.spare = new Uint16Array(buffer, this.spareAt, size); // a copy to try a word on
        this.places = places;
        this.count = BigInt(places);
        this.iAt = iAt;
        this.zAt = zAt;
        this.length = BigInt(bytes.length);
        this.i.fill(FRESH_I);
        this.z.fill(FRESH_Z);
        this.reset(this.recordAt);
    }

    // ---- the calls

    reset(recordAt) { this.calls.dextolumen_reset(recordAt); }

    // One word on a record where it stands. Answers its number; `passed` is how many pixels passed.
    take(recordAt, word, count) {
        this.calls.dextolumen_step(this.toldAt, recordAt, word >>> 16, word & 65535, this.iAt, count, this.zAt, count);
        return this.u32[this.toldAt >> 2];
    }

    step(word) { return this.take(this.recordAt, word, this.count); }

    // The same for the record that walks, over memories of no places: what a word does to the registers goes by no place.
    walkOn(word) { return this.take(this.walkAt, word, 0n); }

    get passed() { return this.number(this.toldAt, this.layout['told.passed']); }

    number(at, offset) { const k = (at + offset) >> 2; return this.u32[k] + 4294967296 * this.u32[k + 1]; }

    // The words of the stream that was lent, 20 bits each; or the number that refuses it.
    words() {
        const { dextolumen_word_count, dextolumen_word_at } = this.calls;
        const count = BigInt.asUintN(64, dextolumen_word_count(this.streamAt, this.length));
        if (count >= REFUSED) return { refusal: Number(count - REFUSED), words: new Uint32Array(0) };
        const words = new Uint32Array(Number(count));
        for (let k = 0; k < words.length; k++) words[k] = Number(dextolumen_word_at(this.streamAt, this.length, BigInt(k)));
        return { refusal: 0, words };
    }

    // The whole stream in one call, from reset; over memories in tiles where `tiled` says so.
    run(tiled = false) {
        const call = tiled ? this.calls.dextolumen_run_tiled : this.calls.dextolumen_run;
        call(this.endedAt, this.streamAt, this.length, this.iAt, this.count, this.zAt, this.count);
        const told = name => this.number(this.endedAt, this.layout[`ended.${name}`]), from = (this.endedAt + this.layout['ended.registers']) / 2;
        this.record.set(new Uint16Array(this.calls.memory.buffer).subarray(from, from + this.fields.size));
        return { refusal: told('refusal'), index: told('index'), sum: told('sum') };
    }

    // A damaged recording as a good stream, with the words that were dropped; over memories of no places, so that nothing is drawn. What was lent
    // before is gone.
    mend(bytes) {
        this.lend(bytes, 0);
        const words = Math.floor(2 * bytes.length / 5);
        const outAt = this.iAt, indicesAt = aligned(outAt + bytes.length), numbersAt = aligned(indicesAt + 8 * words), end = aligned(numbersAt + words);
        const buffer = this.reach(end + 16);
        this.u32 = new Uint32Array(buffer, 0, this.streamAt >> 2);
        const list = BigInt(words);
        this.calls.dextolumen_mend(this.mendedAt, this.streamAt, this.length, outAt, this.length, indicesAt, list, numbersAt, list, end, 0n, end, 0n);
        const told = name => this.number(this.mendedAt, this.layout[`mended.${name}`]), dropped = told('dropped');
        return {
            refusal: told('refusal'), cut: told('cut'), cleared: told('cleared'),
            bytes: new Uint8Array(buffer, outAt, told('size')).slice(),
            indices: Array.from(new BigUint64Array(buffer, indicesAt, dropped), Number),
            numbers: new Uint8Array(buffer, numbersAt, dropped).slice(),
        };
    }
}
