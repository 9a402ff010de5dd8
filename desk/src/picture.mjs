/* The readings of one record as a picture: a bar for each, up for 0 and down for 1, and below them
 * the word found and the runner-up. */
import { make } from './dom.mjs';

const WIDEST = 900;
const LEFT = 70;
const RIGHT = 4;
const TOP = 14;
const TALL = 172;
/* the smallest letters that can be read, in pixels, and how wide and high a digit of them is */
const SMALL = 10;
const DIGIT = 6.2;

/* a reading speaks against a bit if it is not 0 and its sign is the other one's */
export const against = (reading, bit) => reading !== 0 && reading < 0 !== (bit === 1);

/* the bar of a reading: from the middle line up if it is above 0, down if below */
export function bar(reading, largest, middle, most) {
    const height = (Math.abs(reading) / largest) * most;
    return { y: reading < 0 ? middle : middle - height, height };
}

function tip({ readings, word, runnerWord }, j) {
    let text = `position ${j}: reading ${readings[j]}`;
    if (!word) return text;
    text += against(readings[j], word[j]) ? ' disagrees with the word, ' : ', word ';
    text += word[j];
    if (runnerWord[j] !== word[j]) text += `; the runner-up has ${runnerWord[j]}`;
    return text;
}

const hatch = () => make('defs', {},
    make('pattern', { id: 'hatch', width: 5, height: 5, patternUnits: 'userSpaceOnUse',
        patternTransform: 'rotate(45)' },
    make('path', { d: 'M0 0V5', class: 'hatch-line' })));

const label = (y, text) => make('text', { x: LEFT - 10, y, class: 'label' }, text);

/* How the numbers of the bars are written: level where they fit, upright where they are too wide
 * for that, and not at all where they could not be read. */
export function lettering(step, readings) {
    const most = Math.max(...Array.from(readings, (x) => String(x).length));
    if (most * DIGIT <= step) return 'level';
    return step >= SMALL + 1 ? 'upright' : 'none';
}

/* the number of a bar, beyond its end */
function sizeAt(reading, { x, step, box, kind, letters }) {
    const down = reading < 0;
    const middle = x + step / 2;
    const end = down ? box.y + box.height : box.y;
    if (letters === 'level') {
        return make('text', { x: middle, y: down ? end + 10 : end - 4, class: `size ${kind}`,
            'font-size': SMALL }, String(reading));
    }
    const y = down ? end + 4 : end - 4;
    return make('text', { class: `size ${kind} ${down ? 'below' : 'above'}`, 'font-size': SMALL,
        transform: `translate(${middle + 3.5} ${y}) rotate(-90)` }, String(reading));
}

/* one position: its bar, its number, its bit in the word and in the runner-up */
function column(answer, j, { x, step, middle, most, largest, rowAt, letters }) {
    const { readings, word } = answer;
    const inner = Math.max(1, step * (step < 12 ? 0.8 : 0.66));
    const left = x + (step - inner) / 2;
    const wrong = word && against(readings[j], word[j]);
    const box = bar(readings[j], largest, middle, most);
    const kind = wrong ? 'against' : readings[j] < 0 ? 'one' : 'zero';
    const group = make('g', { class: 'position', 'data-position': j },
        make('title', {}, tip(answer, j)),
        make('rect', { x, y: TOP, width: step, height: TALL, class: 'back' }),
        make('rect', { x: left, width: inner, ...box, class: `bar ${kind}` }));
    if (letters !== 'none') group.append(sizeAt(readings[j], { x, step, box, kind, letters }));
    if (word) group.append(...bitsAt(answer, j, { x, step, left, inner, rowAt, wrong }));
    return group;
}

/* the bits as digits where there is room for them, else as cells in their colors */
function bitsAt({ word, runnerWord }, j, { x, step, left, inner, rowAt, wrong }) {
    const differs = runnerWord[j] !== word[j];
    if (step < 8) {
        const cell = (y, bit, mark) => make('rect', { x, y, width: step, height: 14,
            class: `cell ${bit ? 'one' : 'zero'}${mark}` });
        return [cell(rowAt - 8, word[j], wrong ? ' wrong' : ''),
            cell(rowAt + 14, runnerWord[j], differs ? '' : ' same')];
    }
    const size = step < 12 ? SMALL : 14;
    const bit = (y, value, mark) => make('text', { x: x + step / 2, y, class: `bit${mark}`,
        'font-size': size }, String(value));
    const parts = [bit(rowAt + 5, word[j], wrong ? ' wrong' : ''),
        bit(rowAt + 29, runnerWord[j], differs ? '' : ' same')];
    if (differs) {
        parts.push(make('rect', { x: left - 1, y: rowAt + 14, width: inner + 2, height: 20, rx: 3,
            class: 'frame' }));
    }
    return parts;
}

/* what a person hears who does not see the picture */
function spoken({ readings, word, runnerWord }) {
    const where = (test) => Array.from(readings).flatMap((x, j) => (test(x, j) ? [j] : []));
    let text = `${readings.length} readings: ${Array.from(readings).join(', ')}.`;
    if (!word) return text;
    const wrong = where((x, j) => against(x, word[j]));
    text += wrong.length ? ` Those at ${wrong.join(', ')} disagree with the word found.`
        : ' All agree with the word found.';
    const other = where((x, j) => runnerWord[j] !== word[j]);
    return `${text} The runner-up differs at ${other.join(', ')}.`;
}

/* drawn in the pixels of the width that there is, so that letters have the size they say */
export function picture(answer, there) {
    const { readings, word } = answer;
    const wide = Math.max(240, Math.min(WIDEST, there));
    const n = answer.n || readings.length;
    const step = (wide - LEFT - RIGHT) / n;
    const letters = lettering(step, readings);
    const middle = TOP + TALL / 2;
    const most = TALL / 2 - (letters === 'upright' ? 34 : letters === 'level' ? 12 : 2);
    const rowAt = TOP + TALL + 22;
    const largest = Math.max(1, ...readings.map(Math.abs));
    const tall = rowAt + (word ? 40 : -14);
    const svg = make('svg', { viewBox: `0 0 ${wide} ${tall}`, width: wide, height: tall,
        class: 'picture', role: 'img', 'aria-label': spoken(answer) }, hatch());
    svg.append(label(TOP + 16, 'for 0'), label(TOP + TALL - 8, 'for 1'));
    if (word) svg.append(label(rowAt + 4, 'word'), label(rowAt + 28, 'runner-up'));
    const place = { step, middle, most, largest, rowAt, letters };
    for (let j = 0; j < readings.length; j++) {
        svg.append(column(answer, j, { ...place, x: LEFT + j * step }));
    }
    svg.append(make('line', { x1: LEFT, x2: wide - RIGHT, y1: middle, y2: middle, class: 'axis' }));
    return svg;
}
