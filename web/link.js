// The page's line to its worker, and small things that all of the page uses.

export const $ = id => document.getElementById(id);
export const plain = n => n.toLocaleString('en');
export const counted = (n, one, many = one + 's') => `${plain(n)} ${n === 1 ? one : many}`;
export const bytesOf = text => Uint8Array.from(atob(text), c => c.charCodeAt(0));

// An element with a class, and text or elements inside.
export function make(name, kind, ...inside) {
    const element = document.createElement(name);
    if (kind) element.className = kind;
    element.append(...inside);
    return element;
}

export class Link {
    // Starts a worker from its text: a page opened from a file may load no other file.
    constructor(text, onProgress, onError) {
        const url = URL.createObjectURL(new Blob([text], { type: 'text/javascript' }));
        this.worker = new Worker(url);
        this.waiting = new Map();
        this.id = 0;
        this.worker.onerror = e => onError(e.message || 'the worker does not start');
        this.worker.onmessage = ({ data }) => {
            if (data.progress) { onProgress(data.progress); return; }
            const { yes, no } = this.waiting.get(data.id);
            this.waiting.delete(data.id);
            if ('error' in data) no(new Error(data.error)); else yes(data.answer);
        };
    }

    // Asks the worker; what is in `gone` is handed over and not copied.
    ask(what, data = {}, gone = []) {
        return new Promise((yes, no) => {
            this.waiting.set(++this.id, { yes, no });
            this.worker.postMessage({ ...data, id: this.id, ask: what }, gone);
        });
    }

    stop(name) { this.worker.postMessage({ stop: name }); }
}

// Calls `work` with the newest of the values that are asked for, one at a time; those in between are left out. What it answers is fulfilled when
// nothing is left to do; `onError` hears of what goes wrong.
export function newest(work, onError = () => {}) {
    let asked = null, running = null;
    const run = async () => {
        try {
            while (asked) {
                const { value } = asked;
                asked = null;
                await work(value);
            }
        } catch (error) { onError(error); } finally { running = null; }
    };
    return value => {
        asked = { value };
        running = running || run();
        return running;
    };
}

export function save(name, blob) {
    const link = make('a');
    link.href = URL.createObjectURL(blob);
    link.download = name;
    link.click();
    setTimeout(() => URL.revokeObjectURL(link.href), 60000);
}
