// The pictures: panes beside each other that show the same part of the picture, upright, with sharp pixels; zoom, pan and the pixel under the pointer.
import { $, make, newest } from './link.js';

// Device pixels a pixel of the picture, so that each is whole: below 1 each shown pixel stands for several.
const ZOOMS = [...[64, 48, 32, 24, 16, 12, 8, 6, 4, 3, 2].map(n => 1 / n), 1, 2, 3, 4, 6, 8, 12, 16, 24, 32, 48, 64];
const LARGEST_FIT = 24, CAPTION = 28, GAP = 10;

export class Panes {
    // `paint(panes)` answers pixels, `over(pixel)` and `click(pixel)` hear of the pointer, `save(pane)` of the button
    constructor(element, { paint, over, click, save, zoomed }) {
        Object.assign(this, { element, over, click, savePane: save, zoomed, panes: [] });
        Object.assign(this, { width: 0, height: 0, zoom: ZOOMS.indexOf(1), x: 0, y: 0, held: null, at: null, fitted: true });
        this.draw = newest(async () => {
            const shown = this.panes.map(pane => ({ slot: pane.slot, kind: pane.kind, view: this.viewOf(pane) }));
            if (!this.width || !this.height || shown.some(p => !p.view)) { for (const pane of this.panes) this.put(pane, null, null); return; }
            const answers = await paint(shown).catch(() => []);
            answers.forEach(({ pane: { slot, kind, view }, pixels }) => {
                const pane = this.panes.find(p => p.slot === slot && p.kind === kind);
                if (pane) this.put(pane, view, pixels);
            });
            this.marks();
        });
        new ResizeObserver(() => this.arrange()).observe(element);
    }

    get scale() { return ZOOMS[this.zoom]; }
    get stride() { return this.scale < 1 ? Math.round(1 / this.scale) : 1; }

    // ---- which panes

    // Shows these, each { slot, kind, title, legend: [elements] }.
    set(panes) {
        this.element.replaceChildren();
        this.panes = panes.map(({ slot, kind, title, legend }) => {
            const canvas = make('canvas'), stage = make('div', 'stage', canvas), over = make('div', 'spot'), held = make('div', 'spot held');
            const button = make('button', '', 'Save PNG'), caption = make('div', 'caption', make('h2', '', title), ...legend, make('span', 'spring'), button);
            stage.append(over, held);
            this.element.append(make('div', 'pane', caption, stage));
            canvas.tabIndex = 0;
            canvas.setAttribute('role', 'img');
            const pane = { slot, kind, title, canvas, stage, over, held, cells: document.createElement('canvas') };
            button.addEventListener('click', () => this.savePane(pane));
            button.setAttribute('aria-label', `Save ${title} as PNG`);
            this.listen(pane);
            return pane;
        });
        this.arrange();
    }

    // The picture's size; a new recording is fitted.
    size(width, height, anew) {
        const changed = this.width !== width || this.height !== height;
        this.width = width;
        this.height = height;
        if (anew) this.fitted = true;
        if (changed || anew) this.arrange(); else this.draw();
        const said = `${width} by ${height} pixels. Arrows move a pixel, Enter asks which words passed there.`;
        for (const pane of this.panes) pane.canvas.setAttribute('aria-label', `${pane.title}, ${said}`);
    }

    // As many columns of panes as show the picture largest.
    arrange() {
        const n = this.panes.length, { clientWidth: w, clientHeight: h } = this.element;
        if (!n || !w || !h) return;
        let best = 1, most = 0;
        for (let columns = 1; columns <= n; columns++) {
            const rows = Math.ceil(n / columns), across = (w - 32 - (columns - 1) * GAP) / columns, up = (h - 16 - (rows - 1) * GAP) / rows - CAPTION;
            const fit = Math.min(across / Math.max(1, this.width), up / Math.max(1, this.height));
            if (fit > most * 1.05) { most = fit; best = columns; }
        }
        this.element.style.gridTemplateColumns = `repeat(${best}, minmax(0, 1fr))`;
        this.element.style.gridAutoRows = 'minmax(0, 1fr)';
        const dpr = devicePixelRatio || 1;
        for (const { canvas, stage } of this.panes) {
            const width = Math.round(stage.clientWidth * dpr), height = Math.round(stage.clientHeight * dpr);
            if (canvas.width !== width || canvas.height !== height) { canvas.width = width; canvas.height = height; }
        }
        if (this.fitted) this.fit(); else { this.clamp(); this.draw(); }
    }

    // ---- zoom and pan; (x, y) is the picture's point in the lower left corner of a pane

    // As large as all of the picture, or a box in it, fits into a pane.
    fit(box = { left: 0, right: this.width - 1, bottom: 0, top: this.height - 1 }, whole = true) {
        if (!this.panes.length || !this.width || !this.height) { this.draw(); return; }
        const { width, height } = this.panes[0].canvas, across = box.right - box.left + 1, up = box.top - box.bottom + 1;
        this.zoom = 0;
        ZOOMS.forEach((zoom, k) => { if (zoom <= LARGEST_FIT && across * zoom <= width - 8 && up * zoom <= height - 8) this.zoom = k; });
        this.x = (box.left + box.right + 1 - width / this.scale) / 2;
        this.y = (box.bottom + box.top + 1 - height / this.scale) / 2;
        this.fitted = whole;
        this.clamp();
        this.changed();
    }

    // By so many steps, around a point of the pane, or its middle.
    zoomBy(steps, point) {
        if (!this.panes.length) return;
        const { width, height } = this.panes[0].canvas, [px, py] = point || [width / 2, height / 2];
        const x = this.x + px / this.scale, y = this.y + (height - py) / this.scale;
        this.zoom = Math.max(0, Math.min(ZOOMS.length - 1, this.zoom + steps));
        this.x = x - px / this.scale;
        this.y = y - (height - py) / this.scale;
        this.fitted = false;
        this.clamp();
        this.changed();
    }

    changed() {
        const s = this.scale;
        this.zoomed(s >= 1 ? `${s}×` : `1/${Math.round(1 / s)}`);
        this.draw();
    }

    // Some of the picture stays in sight, and its pixels lie on those of the device.
    clamp() {
        const { width, height } = this.panes[0].canvas, w = width / this.scale, h = height / this.scale;
        this.x = Math.round(Math.max(-w * .75, Math.min(this.width - w * .25, this.x)) * this.scale) / this.scale;
        this.y = Math.round(Math.max(-h * .75, Math.min(this.height - h * .25, this.y)) * this.scale) / this.scale;
    }

    // Brings a box into sight.
    see({ left, right, bottom, top }) {
        const { width, height } = this.panes[0].canvas;
        const w = width / this.scale, h = height / this.scale, x = (left + right + 1) / 2, y = (bottom + top + 1) / 2;
        if (left < this.x || right >= this.x + w || bottom < this.y || top >= this.y + h) {
            this.fitted = false;
            this.x = x - w / 2;
            this.y = y - h / 2;
            this.clamp();
            this.draw();
        }
    }

    // ---- drawing

    // The cells of the picture that a pane shows.
    viewOf({ canvas }) {
        const { stride, scale } = this, wide = Math.ceil(this.width / stride), tall = Math.ceil(this.height / stride);
        const left = Math.max(0, Math.floor(this.x / stride)), right = Math.min(wide, Math.ceil((this.x + canvas.width / scale) / stride));
        const bottom = Math.max(0, Math.floor(this.y / stride)), top = Math.min(tall, Math.ceil((this.y + canvas.height / scale) / stride));
        return right > left && top > bottom ? { x: left * stride, y: bottom * stride, columns: right - left, rows: top - bottom, stride } : null;
    }

    // Where a point of the picture lies in a pane's canvas.
    toCanvas({ canvas }, x, y) { return [Math.round((x - this.x) * this.scale), canvas.height - Math.round((y - this.y) * this.scale)]; }

    put(pane, view, pixels) {
        const { canvas, cells } = pane, context = canvas.getContext('2d');
        context.clearRect(0, 0, canvas.width, canvas.height);
        if (!view) return;
        const [left, bottom] = this.toCanvas(pane, 0, 0), [right, top] = this.toCanvas(pane, this.width, this.height);
        context.fillStyle = this.board(context);
        context.fillRect(left, top, right - left, bottom - top);
        cells.width = view.columns;
        cells.height = view.rows;
        cells.getContext('2d').putImageData(new ImageData(new Uint8ClampedArray(pixels.buffer), view.columns, view.rows), 0, 0);
        const [x, y] = this.toCanvas(pane, view.x, view.y + view.rows * view.stride), by = view.stride * this.scale;
        context.imageSmoothingEnabled = false;
        context.drawImage(cells, x, y, Math.round(view.columns * by), Math.round(view.rows * by));
    }

    // The chequered ground of places that nothing was drawn in.
    board(context) {
        const style = getComputedStyle(document.documentElement), key = style.getPropertyValue('--board') + style.getPropertyValue('--square');
        if (this.boardKey !== key) {
            const tile = document.createElement('canvas'), c = tile.getContext('2d');
            tile.width = tile.height = 16;
            c.fillStyle = style.getPropertyValue('--board');
            c.fillRect(0, 0, 16, 16);
            c.fillStyle = style.getPropertyValue('--square');
            c.fillRect(0, 0, 8, 8);
            c.fillRect(8, 8, 8, 8);
            this.boardKey = key;
            this.boardFill = context.createPattern(tile, 'repeat');
        }
        return this.boardFill;
    }

    // The pixel under the pointer and the one that was clicked, in every pane.
    marks() {
        const dpr = devicePixelRatio || 1;
        for (const pane of this.panes) {
            for (const [box, pixel] of [[pane.over, this.at], [pane.held, this.held]]) {
                box.style.display = pixel ? 'block' : 'none';
                if (!pixel) continue;
                const [x, y] = this.toCanvas(pane, pixel.x, pixel.y + 1), side = Math.max(this.scale, 4);
                Object.assign(box.style, { left: `${x / dpr}px`, top: `${y / dpr}px`, width: `${side / dpr}px`, height: `${side / dpr}px` });
            }
        }
    }

    // ---- pointer and keys

    pixelAt({ canvas }, event) {
        const box = canvas.getBoundingClientRect(), px = Math.floor(event.clientX) + .5, py = Math.floor(event.clientY) + .5;
        const right = (px - box.left) * canvas.width / box.width, up = (box.bottom - py) * canvas.height / box.height;
        const x = Math.floor(this.x + right / this.scale), y = Math.floor(this.y + up / this.scale);
        return x >= 0 && y >= 0 && x < this.width && y < this.height ? { x, y } : null;
    }

    point(pixel) {
        this.at = pixel;
        this.marks();
        this.over(pixel);
    }

    listen(pane) {
        const { canvas } = pane;
        let from = null;
        canvas.addEventListener('mousedown', e => e.preventDefault()); // a click takes no focus, so that arrow keys go on replaying
        canvas.addEventListener('pointerdown', e => {
            if (e.button) return;
            from = { clientX: e.clientX, clientY: e.clientY, x: this.x, y: this.y, moved: false };
            canvas.setPointerCapture(e.pointerId);
        });
        canvas.addEventListener('pointermove', e => {
            if (from && (from.moved || Math.hypot(e.clientX - from.clientX, e.clientY - from.clientY) > 4)) {
                const dpr = devicePixelRatio || 1;
                from.moved = true;
                canvas.classList.add('moving');
                this.x = from.x - (e.clientX - from.clientX) * dpr / this.scale;
                this.y = from.y + (e.clientY - from.clientY) * dpr / this.scale;
                this.fitted = false;
                this.clamp();
                this.draw();
            } else this.point(this.pixelAt(pane, e));
        });
        const release = e => {
            const clicked = from && !from.moved && e.type === 'pointerup';
            from = null;
            canvas.classList.remove('moving');
            if (clicked) { const pixel = this.pixelAt(pane, e); if (pixel) this.click(pixel); }
        };
        canvas.addEventListener('pointerup', release);
        canvas.addEventListener('pointercancel', release);
        canvas.addEventListener('pointerleave', () => { if (!from) this.point(null); });
        canvas.addEventListener('wheel', e => {
            e.preventDefault();
            const box = canvas.getBoundingClientRect(), dpr = canvas.width / box.width;
            this.zoomBy(e.deltaY < 0 ? 1 : -1, [(e.clientX - box.left) * dpr, (e.clientY - box.top) * dpr]);
        }, { passive: false });
        canvas.addEventListener('keydown', e => {
            const by = { ArrowLeft: [-1, 0], ArrowRight: [1, 0], ArrowUp: [0, 1], ArrowDown: [0, -1] }[e.key];
            if (by) {
                const step = e.shiftKey ? 10 : 1, at = this.at || this.held || { x: Math.floor(this.width / 2), y: Math.floor(this.height / 2) };
                const pixel = { x: Math.max(0, Math.min(this.width - 1, at.x + step * by[0])), y: Math.max(0, Math.min(this.height - 1, at.y + step * by[1])) };
                this.see({ left: pixel.x, right: pixel.x, bottom: pixel.y, top: pixel.y });
                this.point(pixel);
            } else if (e.key === 'Enter' && this.at) this.click(this.at);
            else return;
            e.preventDefault();
            e.stopPropagation();
        });
    }
}
