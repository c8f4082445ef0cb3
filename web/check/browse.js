// usage: node browse.js PAGE DIR PICTURE: the page in chromium, opened from a file. What it says of the recordings in DIR is what the programs print of
// them (web/browse-test makes both). PICTURE is where a screenshot goes; one of a comparison goes beside the page.
import fs from 'node:fs';
import http from 'node:http';
import path from 'node:path';
import { Reader } from './reader.js';
import { pixelsOf } from './png.js';

const [, , file, dir, picture] = process.argv, at = name => path.join(dir, name), text = name => fs.readFileSync(at(name), 'latin1');
const plain = n => n.toLocaleString('en'), least = list => Math.min(...list), most = list => Math.max(...list);
const page = await Reader.open(`file://${path.resolve(file)}`, { width: 1720, height: 900 }); // wide enough for a line of 1,024 pixels
process.on('exit', () => page.child.kill());
let checks = 0;

async function fail(...what) {
    console.error(`web/browse-test: ${what.join(' ')}`);
    await page.picture(at('failed.png')).catch(() => {});
    process.exit(1);
}
async function expect(holds, ...what) {
    if (!holds) await fail(...what);
    checks++;
}
async function says(part, start = false) {
    const said = await page.status();
    await expect(start ? said.startsWith(part) : said.includes(part), `'${part}' is expected, and the page says`, said);
}

// What `draw` printed: how the run ended, and the numbers of each place that it lists.
function drawn(name) {
    const [head, ...lines] = text(name).trim().split('\n'), [, words, , refusal, , passed] = head.split(' ').map(Number), places = new Map();
    for (const line of lines) {
        const [x, y, i, z] = line.split(' ').map(Number);
        places.set(`${x} ${y}`, { x, y, i, z });
    }
    return { words, refusal, passed, places };
}

// Of some of the places that draw lists, and of two that it does not, the page says the same numbers.
async function sameNumbers(want, tries) {
    const { width, height } = await page.frame(), all = [...want.places.values()].filter(p => p.y < height);
    for (let k = 0; k < tries && all.length; k++) {
        const { x, y, i, z } = all[Math.floor(k * all.length / tries)], said = await page.hover(x, y);
        await expect(said === `x ${x}  y ${y}  I ${i}  Z ${z}`, `draw says ${x} ${y} ${i} ${z}, and the page`, said);
    }
    for (let y = height - 1, left = 2; y >= 0 && left; y -= 3) {
        const x = (y * 37) % width;
        if (want.places.has(`${x} ${y}`)) continue;
        await expect(/ {2}I 0 {2}Z 65535 {2}untouched$/.test(await page.hover(x, y)), x, y, 'is untouched');
        left--;
    }
}

async function saved(name) {
    const there = path.join(page.home, name);
    for (let k = 0; k < 400 && !fs.existsSync(there); k++) await new Promise(go => setTimeout(go, 25));
    if (!fs.existsSync(there)) await fail(name, 'was not saved');
    await new Promise(go => setTimeout(go, 200));
    return fs.readFileSync(there);
}

const listed = text('scene.list').trim().split('\n'), scene = drawn('scene.drawn');

// ---- what is tried

// Numbers as draw prints them; greys from the least to the greatest I, and another colour where nothing was drawn.
async function theScene() {
    await page.give(at('scene.rec'));
    await says(`${scene.words} words · none refused · ${plain(scene.passed)} pixels passed · 256 by `, true);
    await sameNumbers(scene, 30);
    const list = [...scene.places.values()], low = least(list.map(p => p.i)), high = most(list.map(p => p.i));
    for (let k = 0; k < 12; k++) {
        const { x, y, i } = list[Math.floor(k * list.length / 12)], [r, g, b] = await page.colour(x, y), grey = 38 + 217 * (i - low) / (high - low);
        await expect(Math.abs(r - grey) <= 2 && Math.abs(g - grey) <= 2 && Math.abs(b - grey) <= 6, x, y, 'is painted', r, g, b, 'for I', i);
    }
}

// At word n the page has what draw makes of the first n words, and the list has the words that list prints.
async function theReplay() {
    for (const n of [0, 21, 60, 133]) {
        await page.move(n);
        await sameNumbers(drawn(`scene-${n}.drawn`), 8);
    }
    const rows = await page.words();
    await expect(rows.length > 8, 'too few words are shown');
    for (const [n, digits, meaning] of rows) {
        const [word, , index, name, data] = listed[+n].split(/ +/), told = [`${name} ${data} `, `${name} ${parseInt(data, 16)} `];
        await expect(word === digits && +index === +n && told.some(t => meaning.startsWith(t)), 'list says', listed[+n], 'and the page', n, digits, meaning);
    }
    await expect((await page.said('word')).includes(listed[132].slice(0, 5)), 'the last word taken is shown');
    const third = listed.map((l, k) => [l, k]).filter(([l]) => / X /.test(l))[1][1]; // completes the first triangle
    for (const [key, n] of [['ArrowLeft', 132], ['ArrowRight', 133], ['Home', 0], [']', third + 1], ['End', 198], ['PageUp', 98], ['End', 198]]) {
        await page.press(key, n);
        checks++;
    }
}

// The words that passed a pixel: the last with the numbers that draw has there, each from what the one before left; as trace says.
async function aClick(x, y) {
    const want = scene.places.get(`${x} ${y}`), { said, passes } = await page.clicked(x, y), last = passes[passes.length - 1];
    await expect(said === `At x ${x}, y ${y}: ${passes.length} ${passes.length === 1 ? 'word' : 'words'} passed.`, 'the page says', said);
    await expect(last[2] === want.i && last[4] === want.z, 'the last numbers at', x, y, 'are', last);
    let before = [0, 65535];
    for (const [n, i, nextI, z, nextZ] of passes) {
        await expect(i === before[0] && z === before[1], 'numbers change between words, at word', n);
        before = [nextI, nextZ];
    }
    // a line has the word's index behind `#`, and last I and Z before the word and after it
    const lines = text(`trace-${x}-${y}`).split('\n').filter(Boolean).map(line => line.split(/ +/));
    const told = JSON.stringify(lines.map(f => [f[2], f.at(-4), f.at(-2), f.at(-3), f.at(-1)].map(Number)));
    await expect(told === JSON.stringify(passes), 'trace says', told, 'of', x, y, 'and the page', JSON.stringify(passes));
    // a jump: after the word the place is as it left it, before the word as it was
    const [n, , i, , z] = passes[0];
    await page.click('#passes .word');
    await page.at(n + 1);
    await expect((await page.hover(x, y)) === `x ${x}  y ${y}  I ${i}  Z ${z}`, 'after the jump');
    await page.press('ArrowLeft', n);
    await expect((await page.hover(x, y)).startsWith(`x ${x}  y ${y}  I 0  Z 65535`), 'before the word');
    await page.press('End', 198);
}

async function byKeyboard() {
    await page.value(`document.querySelector('.stage canvas').focus()`);
    await page.mouse(2, 2);
    for (const key of ['ArrowRight', 'ArrowUp', 'Enter']) await page.key(key);
    await page.until(`/^At x \\d+, y \\d+: .*passed/.test(document.getElementById('passedHere').textContent)`);
    await page.value(`document.activeElement.blur()`);
    checks++;
}

// As overdraw prints them, and as the listed places have them.
async function theStatistics() {
    await page.click('#tabStatistics');
    await page.until(`document.querySelectorAll('#panelStatistics tr').length > 5`);
    const rows = await page.value(`[...document.querySelectorAll('#panelStatistics tr')].map(r => [...r.children].map(c => c.textContent.replace(/,/g, '')))`);
    const table = JSON.stringify(rows.slice(1, 6).map(r => r.slice(1, 5)));
    const report = JSON.stringify(text('overdraw').split('\n').filter(l => l.startsWith('000 ')).map(l => l.trim().split(/ +/).slice(2, 6)).slice(0, 5));
    await expect(table === report, 'overdraw prints', report, 'and the page', table);
    const list = [...scene.places.values()], span = (part, among = list) => `${least(among.map(p => p[part]))} to ${most(among.map(p => p[part]))}`;
    const facts = await page.text('#panelStatistics dl');
    for (const fact of [span('i'), span('z', list.filter(p => p.z < 65535)), `x ${span('x')}, y ${span('y')}: ${plain(list.length)} places`]) {
        await expect(facts.includes(fact), 'the page does not say', fact, 'but', facts);
    }
}

async function thePicture() {
    await page.click('.pane .caption button');
    const png = pixelsOf(await saved('scene-i-198.png')), { width, height } = await page.frame();
    await expect(png.colours === 6 && png.width === width && png.height === height, 'the PNG has', png.width, 'by', png.height);
    let unlike = 0;
    for (let y = 0; y < height; y++) for (let x = 0; x < width; x++) if ((png.at(x, y)[3] === 255) !== scene.places.has(`${x} ${y}`)) unlike++;
    await expect(unlike === 0, 'the PNG has', unlike, 'pixels that draw has not, or lacks them');
}

async function twoRecordings() {
    await page.give(at('other.rec'), '#other');
    await page.until(`/Unlike pixels[0-9]/.test(document.getElementById('panelCompare').textContent)`);
    const other = drawn('other.drawn'), none = { i: 0, z: 65535 }, unlike = { i: 0, z: 0, either: 0 };
    for (const k of new Set([...scene.places.keys(), ...other.places.keys()])) {
        const a = scene.places.get(k) || none, b = other.places.get(k) || none;
        if (a.i !== b.i) unlike.i++;
        if (a.z !== b.z) unlike.z++;
        if (a.i !== b.i || a.z !== b.z) unlike.either++;
    }
    const others = text('other.list').split('\n'), parting = listed.findIndex((l, k) => l !== others[k]), said = await page.said('panelCompare');
    const counts = `${plain(unlike.either)}: ${plain(unlike.i)} in I, ${plain(unlike.z)} in Z`;
    await expect(unlike.either > 0 && said.includes(counts), 'the pictures differ in', counts, 'and the page says', said);
    await expect(said.includes(`part at word ${parting}: ${listed[parting].slice(0, 5)} `), 'words part at', parting, 'and the page says', said);
    await expect(await page.panes() === 5, 'five panes');
    await page.picture(path.join(path.dirname(file), 'compare.png'));
    await page.value(`[...document.querySelectorAll('#panelCompare button')].find(b => b.textContent.startsWith('Close')).click()`);
    await page.shown();
    await expect(await page.panes() === 2, 'two panes');
}

async function damagedOnes() {
    const stopped = drawn('stopped.drawn'), dropped = text('damaged.said').trim().split('\n').pop(), rubbish = drawn('rubbish.drawn');
    await page.give(at('stopped.rec'));
    await says(`word ${stopped.words} is refused with 4: the command is reserved`);
    await expect((await page.said('word')).startsWith(`Word ${stopped.words} is refused with 4`), 'the refused word is told');
    await sameNumbers(stopped, 6);
    await page.goOn('1 word');
    await sameNumbers(scene, 6);
    await page.stopAtRefused();

    await page.give(at('damaged.rec'));
    await says('refused as a whole with 12: ');
    await page.click('#mend');
    await expect((await saved('damaged-mended.rec')).equals(fs.readFileSync(at('damaged.good'))), 'the mended recording is another');
    await says(`Mended: ${dropped}`, true);
    await page.goOn('2 words');
    await sameNumbers(drawn('damaged-good.drawn'), 3);
    await page.stopAtRefused();

    await page.give(at('empty.rec'));
    await says('0 words · none refused · 0 pixels passed', true);
    await page.give(at('rubbish.rec'));
    await says(`word ${rubbish.words} is refused with ${rubbish.refusal}: `);
    await page.goOn(`${plain(+text('rubbish.said').trim().split('\n').pop().split(' ')[3])} words`);
    await page.stopAtRefused();
}

// 1 MiB: the page stays awake, and says what receive prints; a long drawing is stopped; the widest picture is shown.
async function longOnes() {
    const long = drawn('long.drawn'), began = Date.now();
    await page.value(`window.longest = 0; window.awake = performance.now();
        (function tick() { const now = performance.now(); longest = Math.max(longest, now - awake); awake = now; requestAnimationFrame(tick); })()`);
    await page.give(at('long.rec'));
    const took = Date.now() - began;
    await says('419,430 words · none refused · ', true);
    await page.set('places', 8192);
    await page.until(`document.getElementById('status').textContent.includes('${plain(long.passed)} pixels passed')`, 60);
    await page.shown();
    await sameNumbers(long, 12);
    await page.set('places', 0);
    await page.until(`document.getElementById('status').textContent.includes('1,024 by 7')`, 60);
    await page.shown();
    for (const n of [200000, 199999, 419430, 7, 300000]) await page.move(n);
    const longest = Math.round(await page.value('longest'));
    await expect(longest < 1000, 'the page slept for', longest, 'ms');

    await page.hand('#file', at('filled.rec')); // and does not wait
    await page.until(`!document.getElementById('progress').hidden && document.getElementById('doing').textContent.startsWith('Drawing')`, 30);
    await page.click('#stop');
    await page.until(`document.getElementById('status').textContent.includes('stopped after ')`, 30);
    await page.shown();
    await page.give(at('wide.rec'));
    await says('8,768 by 8,192');
    return { took, longest };
}

async function forReaders() {
    await page.size(1440, 900);
    await page.give(at('scene.rec'));
    await page.value(`document.documentElement.dataset.theme = 'light'; document.getElementById('theme').click()`);
    await page.move(182);
    await page.clicked(80, 10);
    await page.mouse(2, 2);
    await new Promise(go => setTimeout(go, 300));
    await page.picture(picture);
}

// No connection is allowed, and the page from a server asks for nothing more.
async function noNetwork() {
    await expect(page.troubles().length === 0, 'errors in the page:', page.troubles().join('\n'));
    await expect(page.fetched().length === 0, 'the page fetched', page.fetched().join(' '));
    const violated = await page.value(`new Promise(go => {
        addEventListener('securitypolicyviolation', e => go(e.effectiveDirective));
        fetch('https://dextolumen.example/').catch(() => {});
        setTimeout(() => go('nothing'), 3000);
    })`);
    await expect(violated === 'connect-src', 'a fetch is refused by', violated);
    const asked = [], server = http.createServer((request, answer) => {
        asked.push(request.url);
        answer.setHeader('Content-Type', 'text/html');
        answer.end(fs.readFileSync(file));
    });
    await new Promise(go => server.listen(0, '127.0.0.1', go));
    const served = await Reader.open(`http://127.0.0.1:${server.address().port}/#scene.rec`);
    process.on('exit', () => served.child.kill());
    await served.shown();
    await expect((await served.status()).startsWith(`${scene.words} words · none refused`), 'a served page says', await served.status());
    await expect(asked.length === 1 && served.troubles().length === 0, 'a served page asked for', asked.join(' '), served.troubles().join(' '));
    await served.close();
    server.close();
}

try {
    setTimeout(() => fail('no end after five minutes'), 300000).unref();
    await page.until(`document.body && document.body.dataset.state === 'ready'`);
    await theScene();
    await theReplay();
    for (const [x, y] of [[75, 14], [96, 10], [200, 23]]) await aClick(x, y);
    await byKeyboard();
    await theStatistics();
    await thePicture();
    await twoRecordings();
    await damagedOnes();
    const { took, longest } = await longOnes();
    await forReaders();
    await noNetwork();
    const { product } = await page.send('Browser.getVersion');
    await page.close();
    console.log(`web: ${product}: ${checks} things that the page says or does are as the programs print them`);
    console.log(`web: 1 MiB is open after ${took} ms, and the page was never held up for longer than ${longest} ms`);
} catch (error) { await fail(error.stack); }
