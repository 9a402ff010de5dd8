/* Messages over the capture. Tilts by cylinder, starboard upwards and port downwards, as a heel to
 * starboard is the positive one in naval architecture; rod positions by code. Doubtful ones are
 * rings off the lines; a stretch where the link is turned over, or all noise, is shaded. */
import { REFUSAL } from './header.mjs';
import { color, layered } from './dom.mjs';
import { MESSAGES } from './library.mjs';
import { verdictAt } from './sure.mjs';
import { group } from './words.mjs';

const LEFT = 66;
const RIGHT = 10;
const TOP = 8;
const FOOT = 20;
/* up to eight lines, each with a color of its own */
const LINES = [0, 1, 2, 3, 4, 5, 6, 7];

/* on the picture alone a side is a sign: starboard is up */
export const upwards = (swept, w) => (swept.direction[w] ? -swept.tilt[w] : swept.tilt[w]);

/* What is drawn of a telegram: its cylinder's line, its tilt, and a scale of whole degrees to both
 * sides that leaves out the outermost 2 in 1,000. */
const TILTS = {
    carried: 'telegram',
    line: (swept, w) => swept.cylinder[w],
    value: upwards,
    size: (swept, w) => swept.tilt[w],
    name: (line) => `cylinder ${line}`,
    scale(sizes, sure) {
        let largest = 1500;
        for (let beyond = 0; largest > 100; largest--) {
            beyond += sizes[largest];
            if (beyond * 500 > sure) break;
        }
        const high = Math.ceil(largest / 100) * 100;
        return { low: -high, high };
    },
    marks: ({ high }) => [-1, -0.5, 0, 0.5, 1].map((part) => part * high),
    label(tilt) {
        if (tilt === 0) return 'level';
        const size = (Math.abs(tilt) / 100).toFixed(tilt % 100 ? 1 : 0);
        return `${size}° ${tilt > 0 ? 'stbd' : 'port'}`;
    },
};

/* of a rod position: a line for each m, and all positions of the longest code that is there */
const RODS = {
    carried: 'rod',
    line: (swept, w) => (swept.kind[w] >> 4) - 1,
    value: (swept, w) => swept.position[w],
    size: (swept, w) => swept.position[w],
    name: (line) => `RM(1,${line + 1})`,
    scale: (sizes, sure, seen) => ({ low: 0, high: 2 ** (Math.max(0, ...seen) + 1) - 1 }),
    marks: ({ high }) => [0, Math.round(high / 2), high],
    label: (position) => `rod ${position}`,
};

export const SUBJECTS = { tilts: TILTS, rods: RODS };

/* Its scale, and its lines: those with 1 in 200 of the sure messages in sight or more, since noise
 * names others now and then. */
function scaleOf(subject, { swept, as }, from, to, limit) {
    const sizes = new Uint32Array(1501);
    const lines = new Uint32Array(8);
    let sure = 0;
    for (let w = from; w < to; w++) {
        if (!isShown(subject, swept, as, w) || swept.sure[w] < limit) continue;
        sizes[subject.size(swept, w)]++;
        lines[subject.line(swept, w)]++;
        sure++;
    }
    const seen = LINES.filter((line) => lines[line] > 0 && lines[line] * 200 >= sure);
    return { ...subject.scale(sizes, sure, seen), seen };
}

/* a record that is read as a message of this subject, and carries one */
const isShown = ({ carried }, swept, as, w) => swept.message[w] === REFUSAL.DONE
    && as[swept.kind[w]] !== 0 && MESSAGES[swept.kind[w]] === carried;

/* Of each column and line the highest and the lowest sure message; of each column how many records
 * of this subject it has, and how many of them are turned over or doubtful. */
function columnsOf(subject, state, columns, limit) {
    const { swept, as, done, zoom: { from, to } } = state;
    const found = {
        low: new Int16Array(8 * columns).fill(9999),
        high: new Int16Array(8 * columns).fill(-9999),
        all: new Uint32Array(columns),
        turned: new Uint32Array(columns),
        doubtful: new Uint32Array(columns),
    };
    for (let w = from; w < Math.min(to, done); w++) {
        if (MESSAGES[swept.kind[w]] !== subject.carried) continue;
        const b = Math.floor(((w - from) * columns) / (to - from));
        found.all[b]++;
        if (verdictAt(state, w, limit) === 'turned over') found.turned[b]++;
        if (swept.sure[w] < limit) found.doubtful[b]++;
        else if (isShown(subject, swept, as, w)) {
            const at = subject.line(swept, w) * columns + b;
            const y = subject.value(swept, w);
            found.low[at] = Math.min(found.low[at], y);
            found.high[at] = Math.max(found.high[at], y);
        }
    }
    return found;
}

function drawGrid(pen, plot, { marks, label }) {
    pen.font = '12px system-ui, sans-serif';
    pen.textBaseline = 'middle';
    for (const mark of marks(plot)) {
        pen.fillStyle = color('--line');
        pen.fillRect(LEFT, plot.y(mark) - 0.5, plot.width, mark ? 1 : 1.5);
        pen.fillStyle = color('--soft');
        pen.textAlign = 'right';
        pen.fillText(label(mark), LEFT - 8, plot.y(mark));
    }
    pen.fillStyle = color('--soft');
    pen.textAlign = 'left';
    pen.fillText(`record ${group(plot.from)}`, LEFT, plot.foot + 12);
    pen.textAlign = 'right';
    pen.fillText(group(plot.to - 1), LEFT + plot.width, plot.foot + 12);
}

/* shades the columns that `test` picks */
function shade(pen, plot, name, test) {
    pen.fillStyle = color(name);
    for (let b = 0; b < plot.columns; b++) {
        if (test(b)) pen.fillRect(LEFT + b * plot.step, TOP, plot.step + 0.5, plot.foot - TOP);
    }
}

/* a line; it is broken where a stretch is shaded, and where no sure message is near */
function drawLine(pen, plot, found, number, shaded) {
    pen.strokeStyle = color(`--c${number}`);
    pen.fillStyle = color(`--c${number}`);
    pen.lineWidth = 1.4;
    pen.beginPath();
    let last = null;
    const dots = [];
    for (let b = 0; b < plot.columns; b++) {
        const at = number * plot.columns + b;
        if (shaded(b)) last = null;
        if (found.high[at] === -9999 || shaded(b)) continue;
        const x = LEFT + (b + 0.5) * plot.step;
        const y = plot.y((found.low[at] + found.high[at]) / 2);
        const near = last !== null && (x - last < 14 || (x - last) * plot.each <= 16);
        if (near) pen.lineTo(x, y);
        pen.moveTo(x, plot.y(found.low[at]) + 0.7);
        pen.lineTo(x, plot.y(found.high[at]) - 0.7);
        pen.moveTo(x, y);
        last = x;
        if (plot.few) dots.push([x, y]);
    }
    pen.stroke();
    for (const [x, y] of dots) {
        pen.beginPath();
        pen.arc(x, y, 3.4, 0, 7);
        pen.fill();
    }
}

function drawRings(pen, plot, subject, { swept, as, done }, limit) {
    pen.lineWidth = 1;
    pen.globalAlpha = 0.7;
    for (let w = plot.from; w < Math.min(plot.to, done); w++) {
        if (!isShown(subject, swept, as, w) || swept.sure[w] >= limit) continue;
        pen.strokeStyle = color(`--c${subject.line(swept, w)}`);
        pen.beginPath();
        pen.arc(plot.x(w), plot.y(subject.value(swept, w)), 2.4, 0, 7);
        pen.stroke();
    }
    pen.globalAlpha = 1;
}

/* where things go: records from left to right, values from the scale's low at the foot to its high
 * at the top; where records are few each has a dot */
function placed(wide, tall, zoom, scale) {
    const width = wide - LEFT - RIGHT;
    const foot = tall - FOOT;
    const records = zoom.to - zoom.from;
    const columns = Math.max(1, Math.min(records, Math.floor(width)));
    const middle = (scale.low + scale.high) / 2;
    const range = Math.max(1, scale.high - scale.low);
    const half = (foot - TOP) / 2;
    return {
        ...zoom, ...scale, foot, width, columns, step: width / columns, each: records / width,
        few: records * 4 <= width,
        x: (w) => LEFT + ((w - zoom.from + 0.5) / records) * width,
        /* what is beyond the scale stays in sight, at the rim */
        y: (value) => TOP + half
            - half * 0.94 * Math.max(-1.06, Math.min(1.06, (2 * (value - middle)) / range)),
        record: (x) => Math.max(zoom.from, Math.min(zoom.to - 1,
            zoom.from + Math.floor(((x - LEFT) / width) * records))),
    };
}

/* lines, rings and shades; gives where things are, and what the key needs */
function drawPlot(pen, wide, tall, subject, state, limit) {
    const { done, zoom } = state;
    const scale = scaleOf(subject, state, zoom.from, Math.min(zoom.to, done), limit);
    const plot = placed(wide, tall, zoom, scale);
    const found = columnsOf(subject, state, plot.columns, limit);
    /* with too many records for rings a stretch of doubtful ones is shaded, without lines */
    plot.dense = (zoom.to - zoom.from) / plot.columns > 60;
    const noisy = (b) => plot.dense && found.doubtful[b] * 4 > found.all[b];
    drawGrid(pen, plot, subject);
    /* where other kinds of words lie between, a stretch goes on */
    let over = false;
    const stretch = Array.from(found.all, (many, b) => {
        if (many > 0) over = found.turned[b] * 3 > many;
        return over;
    });
    const turned = (b) => stretch[b];
    const shaded = (b) => noisy(b) || turned(b);
    shade(pen, plot, '--turned', turned);
    shade(pen, plot, '--line', noisy);
    LINES.forEach((line) => drawLine(pen, plot, found, line, shaded));
    if (!plot.dense) drawRings(pen, plot, subject, state, limit);
    const any = (counts) => counts.some((many) => many > 0);
    return { ...plot, turned: any(found.turned), doubtful: any(found.doubtful) };
}

/* `drag` is what the mouse selects */
export function drawMessages(canvas, subject, state, limit, drag) {
    const { turn, done, zoom, chosen, as } = state;
    const { pen, found: plot } = layered(canvas, [turn, done, limit, zoom.from, zoom.to, as].join(),
        (...place) => drawPlot(...place, subject, state, limit));
    if (drag) {
        pen.fillStyle = color('--select');
        const left = Math.min(drag.from, drag.to);
        pen.fillRect(left, TOP, Math.abs(drag.to - drag.from), plot.foot - TOP);
    }
    if (chosen >= zoom.from && chosen < zoom.to) {
        pen.fillStyle = color('--ink');
        pen.fillRect(plot.x(chosen) - 0.75, TOP, 1.5, plot.foot - TOP);
    }
    return plot;
}
