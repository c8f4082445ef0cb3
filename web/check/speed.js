// usage: node speed.js RECORDING PLACES RUNS NATIVE: a line of web/speed's table. NATIVE is the least nanoseconds of a native run. Times are
// processor times, so that other work on the machine shows less.
import path from 'node:path';
import { newCard, read, expect } from './kit.js';

const [, , recording, places, runs, native] = process.argv, card = await newCard(), bytes = read(recording);
card.lend(bytes, 0);
const { words } = card.words();

const spent = () => { const { user, system } = process.cpuUsage(); return (user + system) / 1000; };

// The least milliseconds of so many runs, and how the last ended.
function least(run) {
    let best = Infinity, ended;
    for (let k = 0; k < +runs; k++) {
        card.lend(bytes, +places);
        const from = spent();
        ended = run();
        best = Math.min(best, spent() - from);
    }
    return { best, ended };
}
const whole = least(() => card.run()), single = least(() => {
    let sum = 0, index = 0;
    for (; index < words.length && !card.step(words[index]); index++) sum += card.passed;
    return { index, sum };
});
expect(whole.ended.sum === single.ended.sum && whole.ended.index === single.ended.index, 'step and run differ');
const { index, sum } = whole.ended, name = path.basename(recording).padEnd(12), size = `${String(index).padStart(8)}${String(sum).padStart(10)}`;
const row = ms => `${(index / ms / 1000).toFixed(2).padStart(9)}${(sum / ms / 1000).toFixed(0).padStart(8)}`;
console.log(`${name}${size}  ${row(native / 1e6)}  ${row(whole.best)}  ${row(single.best)}`);
