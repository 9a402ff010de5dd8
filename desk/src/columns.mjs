/* Which columns the list has and how wide they are. They are measured in the page's own font, so
 * that no tilt ever loses its side, however narrow the window and however large the numbers: what
 * does not fit is left out, and where that is not enough a row takes two lines. */
import { make } from './dom.mjs';

/* what is left out first, and what never is */
const DISPENSABLE = ['code', 'penalty', 'meter'];
const COLUMNS = ['number', 'code', 'answer', 'sure', 'penalty', 'gap'];
const SPACE = 10;

/* From the widths that are needed and the width that is there: the columns that are shown, whether
 * the bar beside the percentage is, and whether a row takes two lines. */
export function layout(need, wide) {
    const left = [...DISPENSABLE];
    for (;;) {
        const shown = COLUMNS.filter((name) => !DISPENSABLE.includes(name) || left.includes(name));
        const meter = left.includes('meter');
        const bar = meter ? need.meter : 0;
        const widths = shown.map((name) => need[name] + (name === 'sure' ? bar : 0));
        const sum = widths.reduce((a, b) => a + b, 0) + SPACE * (shown.length - 1);
        if (sum <= wide) return { shown, widths, meter, tall: false };
        if (left.length === 0) break;
        left.shift();
    }
    return { shown: ['number', 'answer', 'sure', 'gap'], widths: [need.number, need.answer],
        meter: true, tall: true };
}

/* the columns of a layout for the style sheet: the answer has what is left over */
export function template({ shown, widths, tall }) {
    if (tall) return `${widths[0]}px minmax(0, 1fr) max-content`;
    return shown.map((name, i) => (name === 'answer' ? `minmax(${widths[i]}px, 1fr)`
        : `${widths[i]}px`)).join(' ');
}

export function answerWidth({ shown, widths, tall }, wide) {
    if (tall) return wide - widths[0] - SPACE;
    const others = widths.filter((_, i) => shown[i] !== 'answer');
    return wide - others.reduce((a, b) => a + b + SPACE, 0);
}

/* How wide the texts of each column are, the first being its head, and the bar: in whole pixels, by
 * rows that nobody sees. `bit` is the width of one information bit. */
export function measure(box, texts) {
    const most = Math.max(...Object.values(texts).map((each) => each.length));
    const cell = (name, text = '') =>
        make('span', { class: `${name}${/^0+$/.test(text) ? ' mono' : ''}` }, text);
    const probe = (i) => make('div', { class: `row probe ${i === 0 ? 'head' : ''}` },
        ...COLUMNS.map((name) => cell(name, texts[name][i])));
    const probes = Array.from({ length: most }, (_, i) => probe(i));
    const bar = make('i', { class: 'meter' });
    const last = make('div', { class: 'row probe' }, make('span', { class: 'sure' }, bar));
    box.append(...probes, last);
    const width = (element) => element.getBoundingClientRect().width;
    const widest = (i) => Math.ceil(Math.max(...probes.map((row) => width(row.children[i]))));
    const need = Object.fromEntries(COLUMNS.map((name, i) => [name, widest(i)]));
    need.meter = Math.ceil(width(bar)) + 5;
    const bits = box.querySelector('.probe .mono');
    need.bit = width(bits) / bits.textContent.length;
    for (const row of [...probes, last]) row.remove();
    return need;
}
