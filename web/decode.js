// Words and what they mean. A word is read beside the record that it finds: what a parameter or a vertex means goes by what came before it. The
// names are those that `list` prints; nothing here is asked when pictures are drawn.

export const NAMES = ['PTRN', 'I', 'Z', 'Y', 'X', 'T1X', 'T2X', 'RSVD', 'LX', 'IMG', 'ADDR', 'PX', 'RSVD', 'PARM', 'AUX', 'INIT'];
export const PTRN = 0, X = 4, T1X = 5, T2X = 6, LX = 8, IMG = 9, PX = 11, PARM = 13, AUX = 14, INIT = 15;

// The open figure and the region, as the record has them.
export const STRIP = 1, FAN = 2, LINE = 3, TO_MEMORY = 1, FROM_MEMORY = 2;
// Bits of LSTATUS, ZCONTROL and HCONTROL.
export const INVISIBLE = 0x20, END = 0x10, DEPTH_TEST = 0x40, SECTIONING = 0x20, TO_Z = 8, I_ENABLE = 4, Z_ENABLE = 2;

const hex = (n, digits) => n.toString(16).toUpperCase().padStart(digits, '0');
const onOff = bit => bit ? 'on' : 'off';
const point = (x, y) => `(${x}, ${y})`;

// A word as five hexadecimal digits, and as its name with its data.
export const digits = word => hex(word, 5);
export const commandOf = word => word >>> 16;
export const dataOf = word => word & 65535;

// ---- subcommands

const decimal = name => data => `${name} ${data}`;
const bits = name => data => `${name} ${hex(data, 4)}`;

// A subcommand's name, and what each of its parameters says.
const SUBCOMMANDS = {
    0: ['PMODE', d => d === 0 ? 'Gouraud triangles' : d === 1 ? 'constant triangles' : `mode ${d}`],
    1: ['LMODE', decimal('line mode')],
    2: ['IMODE', decimal('mode')],
    3: ['ZCONTROL', d => `depth test ${onOff(d & DEPTH_TEST)}, sectioning ${onOff(d & SECTIONING)}`],
    4: ['HCONTROL', d => `I ${d & I_ENABLE ? 'written' : 'kept'}, Z ${d & Z_ENABLE ? 'written' : 'kept'}${d & TO_Z ? ', pictures of Z' : ''}`],
    5: ['TPATTERN', bits('transparency pattern')],
    6: ['WINDOW', decimal('left'), decimal('top'), decimal('right'), decimal('bottom'), decimal('closing')],
    7: ['SECTION', decimal('section depth')],
    8: ['COLOR', decimal('foreground'), decimal('background')],
    9: ['LPATTERN', bits('bits 31 to 16'), bits('bits 15 to 0')],
    10: ['MASK', bits('planes')],
    12: ['LSTATUS', d => `${d & INVISIBLE ? 'invisible' : 'visible'}${d & END ? ', the line ends after this segment' : ''}`],
    14: ['IMG', decimal('first corner x'), decimal('first corner y'), decimal('second corner x'), decimal('second corner y')],
    15: ['IMG', decimal('first corner x'), decimal('first corner y'), decimal('second corner x'), decimal('second corner y')],
};
const NOTHING_AWAITED = 13;

const parameterCount = n => SUBCOMMANDS[n] ? SUBCOMMANDS[n].length - 1 : 0;

function subcommandText(n) {
    if (n >= NOTHING_AWAITED || !SUBCOMMANDS[n]) return n < NOTHING_AWAITED ? 'not modelled' : 'no subcommand';
    const count = parameterCount(n);
    return `${SUBCOMMANDS[n][0]}, with ${count} ${count === 1 ? 'parameter' : 'parameters'}`;
}

function parameterText(record, fields, data) {
    const n = record[fields.subcommand], came = record[fields.came], parts = SUBCOMMANDS[n];
    if (!parts || came >= parts.length - 1) return 'a parameter that nothing awaits';
    return `${parts[0]}: ${parts[came + 1](data)}`;
}

// ---- figures

// What one more vertex at x completes: `triangle` or `segment` with its corners, or nothing.
export function completedBy(record, fields, x) {
    const { shape, pair, first, second, latch, lstatus } = fields;
    const here = { x, y: record[latch.y] }, corner = v => ({ x: record[v.x], y: record[v.y] });
    if (record[shape] === LINE) return record[lstatus] & INVISIBLE ? null : { kind: 'segment', corners: [corner(first), here] };
    if ((record[shape] === STRIP || record[shape] === FAN) && record[pair]) return { kind: 'triangle', corners: [corner(first), corner(second), here] };
    return null;
}

// The five kinds of figures that are counted apart, and which one a figure of this moment has.
export const KINDS = ['Gouraud', 'constant', 'line mode 0', 'line mode 1', 'line mode 2'];
export const kindOf = (figure, record, fields) => figure.kind === 'triangle' ? record[fields.pmode] : 2 + record[fields.lmode];

// A constant triangle that is deeper than the section offers nothing.
const isCut = (figure, record, { pmode, zcontrol, latch, section }) => figure.kind === 'triangle' && record[pmode] === 1 &&
    (record[zcontrol] & SECTIONING) !== 0 && record[latch.z] > record[section];

function vertexText(record, fields, x) {
    const y = record[fields.latch.y], figure = completedBy(record, fields, x), ends = (record[fields.lstatus] & END) !== 0;
    if (figure) {
        const corners = figure.corners.map(c => point(c.x, c.y)).join(figure.kind === 'segment' ? ' to ' : ' ');
        const closes = figure.kind === 'segment' && ends ? ', and closes the line' : isCut(figure, record, fields) ? ', which the section cuts' : '';
        return { text: `completes a ${KINDS[kindOf(figure, record, fields)]} ${figure.kind}${closes}`, more: corners };
    }
    if (record[fields.shape] === LINE) return { text: `moves the line on unseen${ends ? ', and closes it' : ''}`, more: `to ${point(x, y)}` };
    return { text: `second vertex of the ${record[fields.shape] === FAN ? 'fan' : 'strip'}`, more: `at ${point(x, y)}` };
}

function ptrnText(record, fields, data) {
    const at = point(record[fields.region.x], record[fields.region.y]), deep = record[fields.hcontrol] & TO_Z;
    const written = record[fields.hcontrol] & (deep ? Z_ENABLE : I_ENABLE);
    return { text: `a pixel of the picture, ${deep ? 'Z' : 'I'}${written ? '' : ', which is not written'}`, more: `${data} at ${at}` };
}

// ---- words

// What a word says, beside the record that it finds: { name, data, text, more }. `line` is the line length after an accepted INIT.
export function meaning(word, record, fields, line) {
    const command = commandOf(word), data = dataOf(word), name = NAMES[command];
    const say = (shown, text, more = '') => ({ name, data: shown, text, more });
    switch (command) {
    case INIT: return say(hex(data, 4), line ? `line length ${line}, everything as after reset` : 'a start that is not allowed');
    case AUX: return say(String(data), subcommandText(data));
    case PARM: return say(hex(data, 4), parameterText(record, fields, data));
    case 1: return say(String(data), 'intensity of the vertices to come');
    case 2: return say(String(data), 'depth of the vertices to come');
    case 3: return say(String(data), 'row of the vertices to come');
    case T1X: case T2X: case LX:
        return say(String(data), `opens a ${command === T1X ? 'strip' : command === T2X ? 'fan' : 'line'}`, `at ${point(data, record[fields.latch.y])}`);
    case X: case PX: {
        const { text, more } = vertexText(record, fields, data);
        return say(String(data), text, more);
    }
    case IMG: return say(hex(data, 4), `opens a region ${data & 1 ? 'from' : 'to'} memory, with 4 parameters`);
    case PTRN: {
        const { text, more } = ptrnText(record, fields, data);
        return say(String(data), text, more);
    }
    default: return say(hex(data, 4), command === 10 ? 'address generator, not modelled' : 'reserved');
    }
}

// ---- refusals

const REASONS = [
    'accepted',
    'the command is above 15',
    'the two memories differ in length, or the record breaks a bound',
    'no INIT was accepted before it',
    'the command is reserved',
    'the card does not model it',
    'a parameter is awaited, and this is neither PARM nor INIT',
    'no parameter is awaited',
    'there is no subcommand above 12',
    'the value is not allowed',
    'it fits no open figure',
    'the recording’s length is no whole number of words',
    'the last half byte of the recording is not 0',
    'it is past the last word',
    'no region is open that way',
];

// A number's reason in words; where the word and the record are known, with what they tell.
export function reason(number, word, record, fields) {
    const general = REASONS[number] || `refusal ${number}`;
    if (record === undefined) return general;
    if (number === 6) {
        const n = record[fields.subcommand], name = SUBCOMMANDS[n] ? SUBCOMMANDS[n][0] : 'AUX';
        return `${name} awaits parameter ${record[fields.came] + 1} of ${parameterCount(n)}, and this is neither PARM nor INIT`;
    }
    if (number === 10) {
        const shape = record[fields.shape], mode = record[fields.lmode];
        if (shape === LINE) return `the open line has mode ${mode}, whose segments end with ${mode === 2 ? 'X' : 'PX'}`;
        return shape ? 'a strip or a fan is open, and PX continues neither' : 'no figure is open';
    }
    if (number === 14) {
        const other = record[fields.region.way] === FROM_MEMORY;
        return other ? 'the open region goes from memory, and PTRN to memory' : 'no region is open, or it is used up';
    }
    return general;
}
