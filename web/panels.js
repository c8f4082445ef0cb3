// What the page says of words, pixels and recordings, as elements.
import { make, plain, counted } from './link.js';

// ---- words

const span = (kind, text) => make('span', kind, text);

function wordText(row) {
    const text = span('t', `${row.name} ${row.data} `), meaning = make('i', '', row.refusal ? `refused: ${row.reason}` : row.text);
    text.append(meaning);
    return text;
}

const fullText = row => `${row.k}: ${row.digits} ${row.name} ${row.data}, ${row.refusal ? `refused with ${row.refusal}: ${row.reason}` : row.text} ${row.more}`;

// A row of the list of words; `at` is how many words are taken.
export function wordRow(row, at) {
    const refused = row.refusal !== 0, element = make('div', 'word');
    element.classList.toggle('refused', refused);
    element.classList.toggle('later', row.k >= at);
    element.classList.toggle('now', row.k === at - 1);
    const told = refused ? `refused ${row.refusal}` : row.passed ? `${plain(row.passed)} px` : '';
    element.append(span('n', plain(row.k)), span('w', row.digits), wordText(row), span('p', told));
    element.title = fullText(row);
    return element;
}

// A row of the list of words that passed at a pixel.
export function passRow({ row, hit }, at) {
    const element = make('div', 'word two');
    element.classList.toggle('later', row.k >= at);
    element.classList.toggle('now', row.k === at - 1);
    const change = `I ${hit.was[0]} → ${hit.now[0]}   Z ${hit.was[1]} → ${hit.now[1]}${hit.stored ? '   stored' : ''}`;
    element.append(span('n', plain(row.k)), wordText(row), span('p', change));
    element.title = fullText(row);
    return element;
}

// The word that was taken last, whole.
export function wordDetail(row) {
    if (!row) return [make('div', 'dim', 'No word is taken yet: the card is as after reset.')];
    const told = row.refusal ? `refused with ${row.refusal}, and skipped` : row.passed ? `${counted(row.passed, 'pixel')} passed` : 'no pixel passed';
    return [
        make('div', 'line', span('n', `${plain(row.k)}  `), `${row.digits}  ${row.name} ${row.data}`),
        make('div', '', row.refusal ? row.reason : `${row.text}${row.more ? ` ${row.more}` : ''}`),
        make('div', 'dim', told),
    ];
}

// The refused word that stops the recording, or why it is not run at all.
export function refusalDetail({ word, number, text }, goOn) {
    const button = make('button', '', 'Go on after it');
    button.addEventListener('click', goOn);
    const head = word === undefined ? `Refused as a whole with ${number}` : `Word ${plain(word)} is refused with ${number}`;
    return [make('b', '', head), make('div', '', `${text[0].toUpperCase()}${text.slice(1)}.`), button];
}

// ---- a recording

export function statusOf(s) {
    const parts = [`${counted(s.words, 'word')}`];
    if (s.damaged) parts.push(`refused as a whole with ${s.damaged.number}: ${s.damaged.text}`);
    else if (s.refusedAt) parts.push(`word ${plain(s.refusedAt.word)} is refused with ${s.refusedAt.number}: ${s.refusedAt.text}`);
    else if (s.stopped) parts.push(`stopped after ${counted(s.end, 'word')}`);
    else parts.push(s.refused ? `${counted(s.refused, 'word')} refused and skipped` : 'none refused');
    parts.push(`${counted(s.sum, 'pixel')} passed`, s.height ? `${plain(s.line)} by ${plain(s.height)}` : 'nothing is stored');
    return parts.join(' · ');
}

function pairs(...rows) {
    const list = make('dl');
    for (const [name, value] of rows) list.append(make('dt', '', name), make('dd', '', value));
    return list;
}

const NUMBERS = ['figures', 'offered', 'passed', 'hidden'];

// Figures and pixels by kind, and a row for all.
function kindsTable(kinds) {
    const table = make('table'), cells = values => values.map(v => make('td', '', typeof v === 'number' ? plain(v) : v));
    const share = k => k.offered ? `${Math.floor(100 * k.hidden / k.offered)} %` : '–';
    const head = make('tr', '', ...['kind', ...NUMBERS, 'share'].map(h => make('th', '', h)));
    const total = Object.fromEntries(NUMBERS.map(name => [name, kinds.reduce((sum, k) => sum + k[name], 0)]));
    table.append(head, ...kinds.map(k => make('tr', '', make('th', '', k.name), ...cells([...NUMBERS.map(name => k[name]), share(k)]))),
        make('tr', 'sum', make('th', '', 'all'), ...cells([...NUMBERS.map(name => total[name]), share(total)])));
    return table;
}

export function statistics(s, told) {
    const { seen } = s, drawn = seen.places > 0;
    const range = (low, high) => drawn && low <= high ? `${low} to ${high}` : '–';
    return [
        told ? kindsTable(told.kinds) : make('p', '', 'Counting…'),
        pairs(['Words', `${plain(s.end)} of ${plain(s.words)} taken, ${plain(s.refused)} refused`], ['Pixels passed', plain(s.sum)],
            ['Pixels of pictures', told ? plain(told.pixels) : '…'],
            ['Least and greatest I', range(seen.iLow, seen.iHigh)], ['Least and greatest Z', range(seen.zLow, seen.zHigh)],
            ['Drawn in', drawn ? `x ${seen.left} to ${seen.right}, y ${seen.bottom} to ${seen.top}: ${counted(seen.places, 'place')}` : 'nothing'],
            ['Line length', plain(s.line)], ['Memory', counted(s.places, 'place')], ['Recording', counted(s.size, 'byte')],
            ['Run in', `${plain(Math.round(s.milliseconds))} ms`]),
    ];
}

// ---- two recordings

const shortText = row => row ? `${row.digits} ${row.name} ${row.data}` : 'the end';

export function comparison(first, second, found, { jump, see, close }) {
    const buttons = make('div', 'buttons'), add = (text, act) => { const b = make('button', '', text); b.addEventListener('click', act); buttons.append(b); };
    const parting = found && found.parting;
    if (found && parting !== null) add('To where the words part', () => jump(parting + 1));
    if (found && found.either) add('To the difference', () => see(found));
    add('Close the comparison', close);
    return [
        pairs(['First', `${first.name}, ${statusOf(first)}`], ['Second', `${second.name}, ${statusOf(second)}`],
            ['Words', !found ? '…' : parting === null ? 'the same in both' : `part at word ${plain(parting)}: ${found.partly.map(shortText).join(', and ')}`],
            ['Shown', !found ? '…' : `after ${plain(found.ends[0])} and ${plain(found.ends[1])} words`],
            ['Unlike pixels', !found ? 'comparing…' : found.either ? `${plain(found.either)}: ${plain(found.i)} in I, ${plain(found.z)} in Z` : 'none'],
            ['Between', found && found.either ? `x ${found.left} to ${found.right}, y ${found.bottom} to ${found.top}` : '–']),
        buttons,
    ];
}
