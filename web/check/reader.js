// The page as a reader has it, for browse.js: recordings given, the slider moved, pixels pointed at, and what the page then says.
import { Page } from './chromium.js';

const byId = id => `document.getElementById('${id}')`;

export class Reader extends Page {
    // What the page says in an element.
    said(id) { return this.value(`${byId(id)}.textContent`); }
    status() { return this.said('status'); }

    shown() { return this.until(`document.body && document.body.dataset.state === 'shown'`, 120); }

    async give(file, field = '#file') {
        await this.value(`document.body.dataset.state = 'given'`);
        await this.hand(field, file);
        await this.shown();
    }

    async set(id, value) {
        await this.value(`(() => { const e = ${byId(id)}; e.value = '${value}'; e.dispatchEvent(new Event(e.type === 'range' ? 'input' : 'change')); })()`);
    }

    // The recording stands at word n.
    at(n) { return this.until(`(${byId('slide')}.getAttribute('aria-valuetext') || '').startsWith('${n} of ')`); }

    async move(n) {
        await this.set('slide', n);
        await this.at(n);
    }

    async press(key, n) {
        await this.key(key);
        await this.at(n);
    }

    // Where the pixels of the first pane lie, in its canvas and in the window; all of the picture is in sight.
    async frame() {
        const { box, size: [w, h], label } = await this.value(`(() => { const c = document.querySelector('.stage canvas'), b = c.getBoundingClientRect();
            return { box: [b.left, b.top, b.width, b.height], size: [c.width, c.height], label: c.getAttribute('aria-label') }; })()`);
        const [, width, height] = label.match(/, (\d+) by (\d+) pixels/).map(Number), zoom = await this.said('zoom');
        const scale = zoom.startsWith('1/') ? 1 / +zoom.slice(2) : parseFloat(zoom);
        const left = -Math.round((width - w / scale) / 2 * scale), bottom = h + Math.round((height - h / scale) / 2 * scale);
        const inside = (x, y) => [left + (x + .5) * scale, bottom - (y + .5) * scale];
        const point = (x, y) => inside(x, y).map((v, k) => Math.floor(box[k] + v * box[k + 2] / [w, h][k]));
        return { width, height, inside, point };
    }

    // What the page says of a pixel that is pointed at.
    async hover(x, y) {
        const frame = await this.frame();
        await this.mouse(...frame.point(x, y));
        await this.until(`${byId('here')}.textContent.startsWith('x ${x}  y ${y} ')`, 5);
        return this.said('here');
    }

    // What the page says of a pixel that is clicked: a line, and for each word its index and the numbers before and after, I and then Z.
    async clicked(x, y) {
        const frame = await this.frame();
        await this.mouse(...frame.point(x, y), true);
        await this.until(`/^At x ${x}, y ${y}: .*passed/.test(${byId('passedHere')}.textContent) && document.querySelectorAll('#passes .word').length > 0`, 20);
        const rows = await this.value(`[...document.querySelectorAll('#passes .word')].map(r => ['.n', '.p'].map(part => r.querySelector(part).textContent))`);
        const numbers = p => p.match(/^I (\d+) → (\d+) {3}Z (\d+) → (\d+)/).slice(1);
        return { said: await this.said('passedHere'), passes: rows.map(([n, p]) => [n, ...numbers(p)].map(Number)) };
    }

    // The words in sight, as the list has them: index, digits, meaning, count.
    words() { return this.value(`[...document.querySelectorAll('#words .word')].map(r => [...r.children].map(c => c.textContent))`); }

    // The colour of a pixel in the first pane.
    async colour(x, y) {
        const [cx, cy] = (await this.frame()).inside(x, y).map(Math.floor);
        return this.value(`[...document.querySelector('.stage canvas').getContext('2d').getImageData(${cx}, ${cy}, 1, 1).data]`);
    }

    panes() { return this.value(`document.querySelectorAll('.pane').length`); }

    // Goes on after a refused word, by the button that the page offers.
    async goOn(words) {
        await this.click('#word button');
        await this.until(`${byId('status')}.textContent.includes('${words} refused and skipped')`, 60);
        await this.shown();
    }

    stopAtRefused() { return this.value(`${byId('on')}.checked = false`); }
}
