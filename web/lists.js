// Lists of any length: only the rows in sight are made, and what stands in them is asked for when they are.
import { make, newest } from './link.js';

const TALLEST = 8e6; // as many CSS pixels as browsers hold; longer lists scroll in larger steps

export class List {
    // `fetch(indices)` answers what rows show, `render(row)` makes an element, `pick(index)` hears of a chosen row.
    constructor(element, { height, fetch, render, pick }) {
        Object.assign(this, { element, height, render, pick, count: 0, active: -1, rows: new Map() });
        this.ground = make('div', 'ground');
        element.append(this.ground);
        element.tabIndex = 0;
        element.setAttribute('role', 'listbox');
        this.fill = newest(async () => {
            const [from, to] = this.sight(), missing = [];
            for (let k = from; k < to; k++) if (!this.rows.has(k)) missing.push(k);
            if (missing.length) {
                const turn = this.turn, rows = await fetch(missing).catch(() => []);
                if (turn !== this.turn) return;
                if (this.rows.size > 2000) this.rows.clear();
                rows.forEach((row, j) => this.rows.set(missing[j], row));
            }
            this.put();
        });
        element.addEventListener('scroll', () => this.fill());
        new ResizeObserver(() => this.fill()).observe(element);
        element.addEventListener('click', e => { const row = e.target.closest('[data-k]'); if (row) this.choose(+row.dataset.k); });
        element.addEventListener('keydown', e => {
            const page = Math.max(1, Math.floor(element.clientHeight / height) - 1);
            const by = { ArrowDown: 1, ArrowUp: -1, PageDown: page, PageUp: -page, Home: -Infinity, End: Infinity }[e.key];
            if (by === undefined || !this.count) return;
            e.preventDefault();
            e.stopPropagation();
            this.choose(Math.max(0, Math.min(this.count - 1, this.active + by)));
        });
    }

    get tall() { return Math.min(TALLEST, this.count * this.height); }

    // So many rows, all anew.
    set(count) {
        this.count = count;
        this.turn = {};
        this.rows.clear();
        this.ground.replaceChildren();
        this.ground.style.height = `${this.tall}px`;
        this.fill();
    }

    // What rows show may have changed.
    refresh() {
        this.turn = {};
        this.rows.clear();
        this.fill();
    }

    // The row where the list's top stands, as a number with a part.
    get first() {
        const room = this.tall - this.element.clientHeight, rows = this.count - this.element.clientHeight / this.height;
        return room > 0 ? this.element.scrollTop / room * rows : 0;
    }

    sight() {
        const from = Math.max(0, Math.floor(this.first) - 2);
        return [from, Math.min(this.count, from + Math.ceil(this.element.clientHeight / this.height) + 5)];
    }

    // Brings a row to the middle, and marks it.
    show(k) {
        this.active = k;
        const visible = this.element.clientHeight / this.height, rows = this.count - visible, room = this.tall - this.element.clientHeight;
        if (room > 0) this.element.scrollTop = Math.max(0, k - visible / 2 + .5) / rows * room;
        this.fill();
    }

    choose(k) { this.active = k; this.pick(k); }

    put() {
        const [from, to] = this.sight(), first = this.first, top = this.element.scrollTop, elements = [];
        for (let k = from; k < to; k++) {
            const row = this.rows.get(k);
            if (!row) continue;
            const element = this.render(row, k);
            element.dataset.k = k;
            element.id = `${this.element.id}-${k}`;
            element.setAttribute('role', 'option');
            element.setAttribute('aria-setsize', this.count);
            element.setAttribute('aria-posinset', k + 1);
            element.setAttribute('aria-selected', k === this.active);
            element.style.top = `${top + (k - first) * this.height}px`;
            elements.push(element);
        }
        this.ground.replaceChildren(...elements);
        if (this.active >= from && this.active < to) this.element.setAttribute('aria-activedescendant', `${this.element.id}-${this.active}`);
        else this.element.removeAttribute('aria-activedescendant');
    }
}
