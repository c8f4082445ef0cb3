// Chromium without a window, by its own protocol over a pipe: no packages and no port. Page.open() starts it with a page.
import { spawn, spawnSync } from 'node:child_process';
import fs from 'node:fs';
import os from 'node:os';
import path from 'node:path';

export const chromium = ['chromium', 'chromium-browser', 'google-chrome'].find(name => spawnSync('sh', ['-c', `command -v ${name}`]).status === 0);

const later = ms => new Promise(go => setTimeout(go, ms));

export class Page {
    static async open(url, { width = 1440, height = 900 } = {}) {
        const page = new this();
        page.home = fs.mkdtempSync(path.join(os.tmpdir(), 'browse-'));
        const options = ['--headless=new', '--no-sandbox', '--disable-gpu', '--disable-dev-shm-usage', '--no-first-run'];
        page.child = spawn(chromium, [...options, '--remote-debugging-pipe', `--user-data-dir=${page.home}`, 'about:blank'],
            { stdio: ['ignore', 'ignore', 'ignore', 'pipe', 'pipe'] });
        page.listen();
        const { targetId } = await page.send('Target.createTarget', { url: 'about:blank' });
        page.session = (await page.send('Target.attachToTarget', { targetId, flatten: true })).sessionId;
        for (const domain of ['Page', 'Runtime', 'DOM', 'Log', 'Network']) await page.ask(`${domain}.enable`);
        await page.send('Browser.setDownloadBehavior', { behavior: 'allow', downloadPath: page.home });
        await page.size(width, height);
        await page.ask('Page.navigate', { url });
        return page;
    }

    listen() {
        this.id = 0;
        this.waiting = new Map();
        this.heard = [];
        let rest = '';
        this.child.stdio[4].on('data', data => {
            const parts = (rest + data).split('\0');
            rest = parts.pop();
            for (const part of parts) {
                const message = JSON.parse(part), waiting = this.waiting.get(message.id);
                if (!waiting) { this.heard.push(message); continue; }
                this.waiting.delete(message.id);
                if (message.error) waiting.no(new Error(JSON.stringify(message.error))); else waiting.yes(message.result);
            }
        });
    }

    send(method, params = {}, sessionId) {
        return new Promise((yes, no) => {
            this.waiting.set(++this.id, { yes, no });
            this.child.stdio[3].write(JSON.stringify({ id: this.id, method, params, sessionId }) + '\0');
        });
    }

    ask(method, params) { return this.send(method, params, this.session); }

    // What an expression is in the page.
    async value(expression) {
        const { result, exceptionDetails } = await this.ask('Runtime.evaluate', { expression, returnByValue: true, awaitPromise: true });
        if (exceptionDetails) throw new Error(`${expression}: ${JSON.stringify(exceptionDetails)}`);
        return result.value;
    }

    text(selector) { return this.value(`document.querySelector(${JSON.stringify(selector)}).textContent`); }

    // Waits until an expression holds.
    async until(expression, seconds = 30) {
        for (let k = 0; k < seconds * 40; k++) {
            if (await this.value(expression)) return;
            await later(25);
        }
        throw new Error(`waited in vain for ${expression}`);
    }

    // Hands a file to a field.
    async hand(selector, file) {
        const { root } = await this.ask('DOM.getDocument'), { nodeId } = await this.ask('DOM.querySelector', { nodeId: root.nodeId, selector });
        await this.ask('DOM.setFileInputFiles', { nodeId, files: [path.resolve(file)] });
    }

    size(width, height) { return this.ask('Emulation.setDeviceMetricsOverride', { width, height, deviceScaleFactor: 1, mobile: false }); }

    async mouse(x, y, click) {
        await this.ask('Input.dispatchMouseEvent', { type: 'mouseMoved', x, y });
        if (!click) return;
        for (const type of ['mousePressed', 'mouseReleased']) await this.ask('Input.dispatchMouseEvent', { type, x, y, button: 'left', clickCount: 1 });
    }

    async key(key) {
        const text = key.length === 1 ? { text: key } : {};
        for (const type of ['keyDown', 'keyUp']) await this.ask('Input.dispatchKeyEvent', { type, key, code: key, ...(type === 'keyDown' ? text : {}) });
    }

    click(selector) { return this.value(`document.querySelector(${JSON.stringify(selector)}).click()`); }

    async picture(file) {
        const { data } = await this.ask('Page.captureScreenshot', { format: 'png' });
        fs.writeFileSync(file, Buffer.from(data, 'base64'));
    }

    // What went wrong in the page, and what it asked of the network beside itself.
    troubles() {
        const isError = { 'Log.entryAdded': p => p.entry.level === 'error', 'Runtime.consoleAPICalled': p => p.type === 'error' };
        const wrong = { ...isError, 'Runtime.exceptionThrown': () => true };
        return this.heard.filter(m => wrong[m.method] && wrong[m.method](m.params)).map(m => JSON.stringify(m.params).slice(0, 600));
    }

    fetched() {
        const asked = this.heard.filter(m => m.method === 'Network.requestWillBeSent').map(m => m.params.request.url);
        return asked.filter(url => !/^(file|data|blob|about):/.test(url));
    }

    async close() {
        const gone = new Promise(go => this.child.on('exit', go));
        this.child.kill();
        await gone;
        await later(200);
        fs.rmSync(this.home, { recursive: true, force: true, maxRetries: 5, retryDelay: 200 });
    }
}
