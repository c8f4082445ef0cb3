// The page: opens recordings, moves through them, and puts what the worker answers where it belongs.
import { $, Link, make, plain, counted, bytesOf, newest, save } from './link.js';
import { Panes } from './panes.js';
import { List } from './lists.js';
import { wordRow, passRow, wordDetail, refusalDetail, statusOf, statistics, comparison } from './panels.js';

const first = { summary: null }, second = { summary: null };
// how many words are taken, the words that passed at the clicked pixel, the worker's colours, figures by kind, and where the pictures differ
let at = 0, hits = [], colours = null, counts = null, found = null, playing = null;

// ---- long work, and how far it is

let slowest = null;
function progress({ name, what, done, of, over }) {
    if (over) { if (slowest === name) { slowest = null; $('progress').hidden = true; } return; }
    slowest = name;
    $('progress').hidden = false;
    $('doing').textContent = `${what[0].toUpperCase()}${what.slice(1)}, ${plain(done)} of ${plain(of)}`;
    $('bar').value = of ? done / of : 0;
}
let halted = null; // what was stopped by hand
$('stop').addEventListener('click', () => {
    halted = slowest;
    if (slowest) link.stop(slowest);
    slowest = null;
    $('progress').hidden = true;
});

const link = new Link($('worker').textContent, progress, message => trouble(new Error(message)));

// ---- recordings

function trouble(error) {
    document.body.dataset.state = 'failed';
    $('trouble').textContent = error.message;
    if (first.summary) { $('status').textContent = error.message; $('status').className = 'bad'; }
}

const choices = () => ({ places: +$('places').value, goOn: $('on').checked });

// Each opening has its turn; where another began meanwhile, its answer comes too late.
let turn = 0;
function begun() {
    stopPlaying();
    document.body.dataset.state = 'opening';
    return ++turn;
}

async function open(slot, name, bytes) {
    const mine = begun();
    try {
        const summary = await link.ask('open', { slot, name, bytes, ...choices() }, [bytes.buffer]);
        if (mine !== turn || summary.dropped) return;
        if (slot === 'a') { first.summary = summary; if (second.summary) await closeSecond(); } else second.summary = summary;
        await opened(true);
    } catch (error) { trouble(error); }
}

// The same recordings under another choice.
async function again() {
    if (!first.summary) return;
    const mine = begun();
    try {
        const a = await link.ask('again', { slot: 'a', ...choices() }), b = second.summary && await link.ask('again', { slot: 'b', ...choices() });
        if (mine !== turn || a.dropped || (b && b.dropped)) return;
        first.summary = a;
        second.summary = b;
        await opened(false);
    } catch (error) { trouble(error); }
}

async function closeSecond() {
    second.summary = null;
    await link.ask('close', { slot: 'b' });
}

const baseName = () => first.summary.name.replace(/\.rec$/, '');
const lastWord = () => Math.max(first.summary.end, second.summary ? second.summary.end : 0);

async function opened(anew) {
    const s = first.summary, both = second.summary !== null;
    counts = found = null;
    hits = [];
    panes.held = null;
    document.title = `${s.name} · Dextolumen`;
    $('trouble').textContent = '';
    $('empty').hidden = true;
    for (const id of ['summary', 'tools', 'panes', 'transport', 'right']) $(id).hidden = false;
    $('name').textContent = both ? `${s.name} and ${second.summary.name}` : s.name;
    $('status').textContent = statusOf(s);
    $('status').className = s.damaged || s.refusedAt ? 'bad' : '';
    $('mend').hidden = !(s.damaged || s.refusedAt || s.refused);
    $('refusedNext').hidden = !s.refused;
    for (const id of ['showSecond', 'showUnlike']) $(id).parentElement.hidden = !both;
    $('slide').max = $('count').max = lastWord();
    $('of').textContent = `of ${counted(s.words, 'word')} taken`;
    words.set(s.words);
    passes.set(0);
    $('passedHere').textContent = 'Click a pixel to see which words passed there.';
    setPanes();
    if (both) selectTab('Compare');
    await drawCourse();
    if (anew) panes.fitted = true;
    await show(lastWord());
    panelChanged();
    document.body.dataset.state = 'shown';
}

// ---- panes

function ramp(colors) {
    const canvas = make('canvas', 'ramp'), context = canvas.getContext('2d');
    canvas.width = colors.length;
    canvas.height = 1;
    const image = context.createImageData(colors.length, 1);
    new Uint32Array(image.data.buffer).set(colors);
    context.putImageData(image, 0, 0);
    return canvas;
}

const css = packed => `rgb(${packed & 255}, ${packed >> 8 & 255}, ${packed >> 16 & 255})`;
function key(colour, text) {
    const box = make('span', 'key');
    box.style.background = css(colour);
    return make('span', '', box, text);
}

function setPanes() {
    const both = second.summary !== null, list = [];
    const legend = kind => [make('span', `low-${kind}`), ramp(colours.ramps[kind]), make('span', `high-${kind}`)];
    for (const slot of both && $('showSecond').checked ? ['a', 'b'] : ['a']) {
        const of = both ? `${slot === 'a' ? 'First' : 'Second'} ` : '';
        if ($('showI').checked) list.push({ slot, kind: 'i', title: `${of}I`, legend: legend('i') });
        if ($('showZ').checked) list.push({ slot, kind: 'z', title: `${of}Z`, legend: legend('z') });
    }
    if (both && $('showUnlike').checked) {
        const { unlike, alike } = colours, keys = [key(unlike[1], 'I'), key(unlike[2], 'Z'), key(unlike[3], 'both'), key(alike, 'alike')];
        list.push({ slot: 'a', kind: 'unlike', title: 'Difference', legend: keys });
    }
    panes.set(list);
}

function setLevels(levels) {
    const { iLow, iHigh, zLow, zHigh } = levels, put = (name, known, text) => {
        for (const element of document.querySelectorAll(name)) element.textContent = known ? text : '–';
    };
    put('.low-i', iLow <= iHigh, iLow);
    put('.high-i', iLow <= iHigh, iHigh);
    put('.low-z', zLow <= zHigh, `near ${zLow}`);
    put('.high-z', zLow <= zHigh, `far ${zHigh}`);
}

const number = n => make('b', '', String(n));
const hover = newest(async pixel => {
    if (!pixel || !first.summary) { $('here').replaceChildren(); return; }
    const [a, b] = await link.ask('pixel', pixel);
    const said = ['x ', number(pixel.x), '  y ', number(pixel.y)];
    for (const [n, name] of [[a, b ? '  first' : ''], [b, '  second']]) {
        if (n) said.push(`${name}  I `, number(n.i), '  Z ', number(n.z), n.fresh ? '  untouched' : '');
    }
    $('here').replaceChildren(...said);
});

async function askPixel(pixel) {
    panes.held = pixel;
    panes.marks();
    selectTab('Pixel');
    $('passedHere').textContent = `At x ${pixel.x}, y ${pixel.y}: asking each word…`;
    const told = await link.ask('watch', pixel);
    if (panes.held !== pixel) return;
    if (told.dropped) { $('passedHere').textContent = 'Stopped.'; return; }
    hits = told.hits;
    const stored = hits.filter(h => h.stored).length, passed = hits.length - stored;
    const said = `: ${counted(passed, 'word')} passed${stored ? `, ${plain(stored)} stored a picture’s pixel` : ''}.`;
    $('passedHere').replaceChildren('At ', make('b', '', `x ${pixel.x}, y ${pixel.y}`), told.outside ? ' there is no memory.' : said);
    passes.set(hits.length);
}

const panes = new Panes($('panes'), {
    paint: shown => first.summary ? link.ask('paint', { panes: shown }) : Promise.resolve([]),
    over: hover,
    click: pixel => askPixel(pixel).catch(trouble),
    zoomed: text => { $('zoom').textContent = text; },
    save: async ({ slot, kind, title }) => {
        const name = `${baseName()}-${title.toLowerCase().replace(/ /g, '-')}-${at}.png`;
        try { save(name, await link.ask('png', { slot, kind })); } catch (error) { trouble(error); }
    },
});
for (const id of ['showI', 'showZ', 'showSecond', 'showUnlike']) $(id).addEventListener('change', () => { setPanes(); show(at); });
$('less').addEventListener('click', () => panes.zoomBy(-1));
$('more').addEventListener('click', () => panes.zoomBy(1));
$('fit').addEventListener('click', () => panes.fit());
const fitDrawn = () => { const { seen } = first.summary; if (seen.places) panes.fit(seen, false); };
$('near').addEventListener('click', fitDrawn);

// ---- words

const words = new List($('words'), {
    height: 22,
    fetch: indices => link.ask('rows', { slot: 'a', indices }),
    render: row => wordRow(row, at),
    pick: k => show(k + 1),
});
const passes = new List($('passes'), {
    height: 40,
    fetch: async indices => (await link.ask('rows', { slot: 'a', indices: indices.map(k => hits[k].word) })).map((row, j) => ({ row, hit: hits[indices[j]] })),
    render: row => passRow(row, at),
    pick: k => show(hits[k].word + 1),
});

// ---- replay

const show = newest(async n => {
    if (!first.summary) return;
    const goal = Math.max(0, Math.min(lastWord(), Math.round(n) || 0)), told = await link.ask('show', { at: goal });
    if (told.dropped) {
        if (halted === 'show') { halted = null; show(told.stands); }
        return;
    }
    const s = first.summary;
    at = goal;
    $('slide').value = $('count').value = at;
    $('slide').setAttribute('aria-valuetext', `${at} of ${s.words} words taken`);
    setLevels(told.levels);
    panes.size(told.width, told.height, false);
    const refused = s.damaged || (s.refusedAt && at >= s.refusedAt.word ? s.refusedAt : null);
    $('word').classList.toggle('bad', refused !== null);
    $('word').replaceChildren(...(refused ? refusalDetail(refused, () => { $('on').checked = true; again(); }) : wordDetail(told.word)));
    words.show(Math.min(s.words - 1, Math.max(0, at - 1)));
    passes.fill();
    drawPosition();
    if (panes.at) hover(panes.at);
    if (second.summary) differ();
}, trouble);

// All of the recording at a glance: pixels passed, and refused words.
let glance = null;
async function drawCourse() {
    const canvas = $('course'), dpr = devicePixelRatio || 1;
    canvas.width = Math.max(1, Math.round(canvas.clientWidth * dpr));
    canvas.height = Math.round(canvas.clientHeight * dpr);
    glance = await link.ask('course', { parts: Math.max(1, Math.min(canvas.width, first.summary.words)) });
    drawPosition();
}

function drawPosition() {
    const canvas = $('course'), context = canvas.getContext('2d'), { width, height } = canvas, style = getComputedStyle(document.documentElement);
    if (!glance) return;
    const n = glance.passed.length, most = Math.log1p(glance.passed.reduce((a, b) => Math.max(a, b), 0)) || 1, w = Math.max(1, width / n);
    context.clearRect(0, 0, width, height);
    const here = first.summary.words ? at / first.summary.words * n : 0;
    for (let k = 0; k < n; k++) {
        const tall = Math.log1p(glance.passed[k]) / most * (height - 2);
        context.fillStyle = style.getPropertyValue(k < here ? '--mark' : '--edge');
        if (tall) context.fillRect(k * width / n, height - tall, Math.max(1, w - (w > 4 ? 1 : 0)), tall);
        if (glance.refused[k]) { context.fillStyle = style.getPropertyValue('--bad'); context.fillRect(k * width / n, 0, Math.max(2, w - 1), height); }
    }
    context.fillStyle = style.getPropertyValue('--edge');
    context.fillRect(0, height - 1, width, 1);
}

async function jumpTo(what, way) {
    const from = way > 0 ? at : at - 2, k = await link.ask('find', { from, way, what });
    if (k !== null) show(k + 1);
}

function stopPlaying() {
    if (playing) { clearInterval(playing); playing = null; $('play').textContent = 'Play'; }
}
// Plays the recording, a word or more at a time, so that all of it takes some ten seconds at most.
function play() {
    if (playing) { stopPlaying(); return; }
    if (!first.summary) return;
    if (at >= lastWord()) show(0);
    const by = Math.max(1, Math.ceil(lastWord() / 250));
    $('play').textContent = 'Pause';
    let next = at >= lastWord() ? 0 : at;
    playing = setInterval(() => { next = Math.min(lastWord(), next + by); show(next); if (next >= lastWord()) stopPlaying(); }, 40);
}

const moves = {
    first: () => show(0), last: () => show(lastWord()), back: () => show(at - 1), forth: () => show(at + 1),
    drawnBefore: () => jumpTo('passed', -1), drawnAfter: () => jumpTo('passed', 1), refusedNext: () => jumpTo('refused', 1), play,
};
for (const [id, move] of Object.entries(moves)) $(id).addEventListener('click', () => { if (id !== 'play') stopPlaying(); move(); });
$('slide').addEventListener('input', () => { stopPlaying(); show(+$('slide').value); });
$('count').addEventListener('change', () => show(+$('count').value));
$('on').addEventListener('change', again);
$('places').addEventListener('change', again);
addEventListener('resize', () => { if (first.summary) drawCourse(); });

// ---- panels

const TABS = ['Pixel', 'Statistics', 'Compare'];
function selectTab(name) {
    for (const tab of TABS) {
        const chosen = tab === name;
        $(`tab${tab}`).setAttribute('aria-selected', chosen);
        $(`tab${tab}`).tabIndex = chosen ? 0 : -1;
        $(`panel${tab}`).hidden = !chosen;
    }
    panelChanged();
}
TABS.forEach((tab, k) => {
    $(`tab${tab}`).addEventListener('click', () => selectTab(tab));
    $(`tab${tab}`).addEventListener('keydown', e => {
        const by = { ArrowRight: 1, ArrowLeft: TABS.length - 1 }[e.key];
        if (!by) return;
        e.preventDefault();
        e.stopPropagation();
        const to = TABS[(k + by) % TABS.length];
        selectTab(to);
        $(`tab${to}`).focus();
    });
});

function panelChanged() {
    if (!first.summary) return;
    if (!$('panelStatistics').hidden) countAll().catch(trouble);
    if (second.summary) return;
    const hint = 'Open a second recording with “Compare with…”, or drop one with Shift held, to see where the two differ.';
    $('panelCompare').replaceChildren(make('p', '', hint));
}

async function countAll() {
    const s = first.summary;
    $('panelStatistics').replaceChildren(...statistics(s, counts));
    if (counts) return;
    const told = await link.ask('tally', { slot: 'a' });
    if (told.dropped || s !== first.summary) return;
    counts = told;
    $('panelStatistics').replaceChildren(...statistics(s, counts));
}

const acts = {
    jump: n => show(n),
    see: box => panes.see(box),
    close: async () => {
        begun();
        await closeSecond();
        selectTab('Statistics');
        await opened(false);
    },
};
const differ = newest(async () => {
    if (!second.summary) return;
    $('panelCompare').replaceChildren(...comparison(first.summary, second.summary, found, acts));
    const told = await link.ask('differ');
    if (told.dropped || !second.summary) return;
    found = told;
    $('panelCompare').replaceChildren(...comparison(first.summary, second.summary, found, acts));
}, trouble);

// ---- keys

addEventListener('keydown', e => {
    if (e.ctrlKey || e.metaKey || e.altKey || $('help').open) return;
    if (e.target.matches('input[type=number], select')) return;
    const step = e.shiftKey ? 10 : 1;
    const keys = {
        ArrowLeft: () => show(at - step), ArrowRight: () => show(at + step), PageUp: () => show(at - 100), PageDown: () => show(at + 100),
        Home: moves.first, End: moves.last, '[': moves.drawnBefore, ']': moves.drawnAfter, r: moves.refusedNext, R: () => jumpTo('refused', -1),
        '+': () => panes.zoomBy(1), '=': () => panes.zoomBy(1), '-': () => panes.zoomBy(-1), '0': () => panes.fit(), d: fitDrawn,
        '?': () => $('help').showModal(), o: () => $('file').click(),
        ' ': e.target.matches('button, input, label') ? null : play,
    };
    const act = keys[e.key];
    if (!act || (!first.summary && e.key !== '?' && e.key !== 'o')) return;
    e.preventDefault();
    if (e.key !== ' ') stopPlaying();
    act();
});

// ---- the rest of the page

const read = async (slot, file) => { if (file) await open(slot, file.name, new Uint8Array(await file.arrayBuffer())).catch(trouble); };
$('file').addEventListener('change', e => { read('a', e.target.files[0]); e.target.value = ''; });
$('other').addEventListener('change', e => { read(first.summary ? 'b' : 'a', e.target.files[0]); e.target.value = ''; });
addEventListener('dragover', e => { e.preventDefault(); document.body.classList.add('over'); });
addEventListener('dragleave', e => { if (!e.relatedTarget) document.body.classList.remove('over'); });
addEventListener('drop', e => {
    e.preventDefault();
    document.body.classList.remove('over');
    read(e.shiftKey && first.summary ? 'b' : 'a', e.dataTransfer.files[0]);
});
$('ask').addEventListener('click', () => $('help').showModal());
$('theme').addEventListener('click', () => {
    const dark = getComputedStyle(document.documentElement).colorScheme === 'dark';
    document.documentElement.dataset.theme = dark ? 'light' : 'dark';
    panes.draw();
    drawPosition();
});
$('mend').addEventListener('click', async () => {
    try {
        const m = await link.ask('mend', { slot: 'a' });
        save(`${baseName()}-mended.rec`, new Blob([m.bytes], { type: 'application/octet-stream' }));
        $('status').textContent = `Mended: kept ${plain(m.kept)} dropped ${plain(m.indices.length)} cut ${m.cut} cleared ${m.cleared}`;
        $('status').className = '';
    } catch (error) { trouble(error); }
});

const examples = [...document.querySelectorAll('.recording')].map(e => ({ name: e.dataset.name, text: e.textContent }));
const openExample = name => { const e = examples.find(x => x.name === name); if (e) open('a', e.name, bytesOf(e.text)); };
for (const { name } of examples) {
    const option = make('option', '', name), button = make('button', '', name);
    option.value = name;
    $('example').append(option);
    button.addEventListener('click', () => openExample(name));
    $('samples').append(button);
}
$('example').addEventListener('change', () => { openExample($('example').value); $('example').value = ''; });

(async () => {
    try {
        colours = await link.ask('start', { module: bytesOf($('module').textContent), layout: JSON.parse($('layout').textContent) });
        document.body.dataset.state = 'ready';
        openExample(decodeURIComponent(location.hash.slice(1)));
    } catch (error) { trouble(new Error(`WebAssembly does not start here: ${error.message}`)); }
})();
