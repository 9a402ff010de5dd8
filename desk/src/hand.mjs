/* Readings by hand: typed, taken from a record to try changes, or made of a telegram with noise. */
import { LARGEST_READING, LARGEST_RECORD_READING, REFUSAL } from './header.mjs';
import { TELEGRAM_BYTE } from './library.mjs';
import { byId, make } from './dom.mjs';
import { shown } from './record.mjs';
import { group, plural } from './words.mjs';

/* how large the readings of a made telegram are without noise */
const SIGNAL = 400;

/* the words of a text that is typed or pasted; a typographic minus is a minus */
const wordsOf = (text) => text.replace(/[−–]/g, '-').split(/[\s,;]+/).filter(Boolean);

/* readings, or what is wrong with them, in a sentence */
export function readingsOf(text, n) {
    const words = wordsOf(text);
    const readings = words.map((word) => (/^[+-]?\d{1,6}$/.test(word) ? Number(word) : NaN));
    const bad = readings.findIndex((x) => !(Math.abs(x) <= LARGEST_READING));
    if (bad >= 0) {
        const largest = group(LARGEST_READING);
        return { fault: `“${words[bad].slice(0, 20)}” is not a reading: whole numbers from `
            + `-${largest} to ${largest}.` };
    }
    if (words.length < n) return { fault: `${words.length} of ${n} readings.`, few: true };
    if (words.length > n) return { fault: `${words.length} readings; this code takes ${n}.` };
    return { readings };
}

/* hundredths of a degree, or NaN: read as text, so that no rounding comes in */
export function hundredthsOf(text) {
    const found = /^\s*(\d{1,3})(?:[.,](\d{0,2}))?\s*$/.exec(text);
    return found ? 100 * Number(found[1]) + Number((found[2] || '').padEnd(2, '0')) : NaN;
}

const normal = () =>
    Math.sqrt(-2 * Math.log(1 - Math.random())) * Math.cos(2 * Math.PI * Math.random());

/* `ask` sends to the worker; `options` gives the limit and whether RM(2,5) is read as telegrams */
export class Hand {
    constructor(kinds, ask, options) {
        Object.assign(this, { kinds, ask, options, id: 0, origin: null, word: null });
        for (let first = 0; first < 256; first++) {
            const { length, r, m, n, k } = kinds[first];
            if (!length) continue;
            const text = `RM(${r},${m}): ${plural(n, 'reading')}, ${plural(k, 'bit')}`;
            byId('code').append(make('option', { value: first }, text));
        }
        byId('code').value = TELEGRAM_BYTE;
        byId('typed').oninput = () => this.typed();
        byId('code').onchange = () => this.typed();
        byId('negate').onclick = () => this.negate();
        byId('clear').onclick = () => this.set([]);
        byId('undo').onclick = () => this.set(this.origin.readings);
        byId('noise').oninput = () => this.noisy();
        byId('telegram').onsubmit = (e) => {
            e.preventDefault();
            this.make();
        };
        this.typed();
    }

    kind() {
        return this.kinds[Number(byId('code').value)];
    }

    set(readings) {
        byId('typed').value = Array.from(readings).join(' ');
        this.typed();
    }

    /* readings of a record, to try changes */
    take(answer, w) {
        this.origin = { w, readings: answer.readings };
        byId('code').value = 16 * answer.m + answer.r;
        this.set(answer.readings);
    }

    say(fault, few) {
        byId('typed-state').className = fault && !few ? 'wrong' : 'soft';
        byId('typed-state').textContent = fault || '';
        byId('typed').setAttribute('aria-invalid', Boolean(fault) && !few);
    }

    typed() {
        this.id++;
        const { r, m, n } = this.kind();
        const { readings, fault, few } = readingsOf(byId('typed').value, n);
        this.say(fault, few);
        this.compare(readings);
        if (readings) {
            this.ask({ kind: 'typed', id: this.id, r, m, readings });
            return;
        }
        this.answer = null;
        byId('hand-answer').replaceChildren(make('p', { class: 'soft' },
            'The answer appears here as soon as all readings are there.'));
    }

    /* how far the readings are from the record that they were taken from */
    compare(readings) {
        const { origin } = this;
        byId('undo').hidden = !origin;
        byId('origin').textContent = '';
        if (!origin) return;
        const same = readings && readings.length === origin.readings.length;
        const changed = same ? readings.filter((x, j) => x !== origin.readings[j]).length : null;
        const text = changed === null ? '' : changed === 0 ? ', unchanged' : `, ${changed} changed`;
        byId('origin').textContent = `From record ${group(origin.w)}${text}.`;
    }

    /* an answer from the worker: an earlier one than the last that was asked for is dropped */
    answered({ id, answer }) {
        if (id !== this.id) return;
        this.answer = answer;
        this.show();
    }

    show() {
        if (!this.answer) return;
        const wide = byId('hand-answer').clientWidth;
        if (wide === 0) return;
        byId('hand-answer').replaceChildren(...shown(this.answer, { ...this.options(), wide }));
        for (const position of byId('hand-answer').querySelectorAll('.position')) {
            position.onclick = () => this.flip(Number(position.dataset.position));
        }
    }

    /* swaps the sign of one reading */
    flip(j) {
        this.set(this.answer.readings.map((x, i) => (i === j ? -x : x)));
    }

    negate() {
        const words = wordsOf(byId('typed').value);
        const swap = (word) => (word.startsWith('-') ? word.slice(1) : `-${word.replace('+', '')}`);
        byId('typed').value = words.map(swap).join(' ');
        this.typed();
    }

    make() {
        const tilt = hundredthsOf(byId('tilt').value);
        if (Number.isNaN(tilt)) {
            byId('made-state').textContent = 'The tilt is a number of degrees such as 12.34.';
            return;
        }
        const cylinder = Number(byId('cylinder').value);
        const direction = tilt === 0 ? 0 : Number(byId('direction').value);
        this.ask({ kind: 'telegram', id: this.id, cylinder, direction, tilt });
    }

    made({ id, refusal, word }) {
        if (id !== this.id) return;
        byId('made-state').textContent = refusal === REFUSAL.DONE ? ''
            : 'There is no such telegram: the cylinder is 0 to 7, the tilt 0 to 15.00 degrees.';
        if (refusal) return;
        this.word = word;
        this.noise = Array.from(word, normal);
        byId('code').value = TELEGRAM_BYTE;
        this.origin = null;
        this.noisy();
    }

    /* the same noise, louder or softer, as the slider says */
    noisy() {
        const part = Number(byId('noise').value) / 100;
        byId('noise-text').textContent = `${byId('noise').value} %`;
        if (!this.word) return;
        this.set(Array.from(this.word, (bit, j) => {
            const reading = Math.round((bit ? -SIGNAL : SIGNAL) + SIGNAL * part * this.noise[j]);
            return Math.max(-LARGEST_RECORD_READING, Math.min(LARGEST_RECORD_READING, reading));
        }));
    }
}
