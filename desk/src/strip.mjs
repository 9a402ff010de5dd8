/* The strip: the whole capture at a glance. Each column is a stretch of records: how sure they are
 * on average, how sure the least sure one is, and whether one is refused or turned over. */
import { color, layered } from './dom.mjs';
import { verdictAt } from './sure.mjs';

const TOP = 9;

/* the records from..to, taken together */
function stretch(state, from, to, limit) {
    const { sure } = state.swept;
    const found = { sum: 0, answered: 0, least: 1000, refused: false, turned: false };
    for (let w = from; w < to; w++) {
        const judged = verdictAt(state, w, limit);
        if (judged === 'refused') {
            found.refused = true;
            continue;
        }
        found.sum += sure[w];
        found.answered++;
        found.least = Math.min(found.least, sure[w]);
        if (judged === 'turned over') found.turned = true;
    }
    return found;
}

/* the part of the capture that the plot shows */
function drawZoom(pen, wide, tall, { zoom, rows, records }) {
    if (zoom.to - zoom.from >= records) return;
    pen.strokeStyle = color('--soft');
    const left = (zoom.from / rows) * wide;
    const right = (zoom.to / rows) * wide;
    pen.strokeRect(left + 0.5, 0.5, Math.max(2, right - left - 1), tall - 1);
}

function drawColumns(pen, wide, tall, state, limit) {
    const { done, rows, ended } = state;
    const low = tall - 2;
    const columns = Math.max(1, Math.min(rows, Math.floor(wide)));
    const step = wide / columns;
    const inner = Math.max(1, step - (step > 4 ? 1 : 0));
    const height = (thousandths) => ((low - TOP) * thousandths) / 1000;
    pen.fillStyle = color('--line');
    pen.fillRect(0, low, wide, 1);
    for (let b = 0; b < columns; b++) {
        const from = Math.floor((b * rows) / columns);
        if (from >= done) break;
        const end = Math.max(from + 1, Math.floor(((b + 1) * rows) / columns));
        const found = stretch(state, from, Math.min(done, end), limit);
        if (found.answered) {
            const mean = height(found.sum / found.answered);
            pen.fillStyle = color('--mean');
            pen.fillRect(b * step, low - mean, inner, mean);
            pen.fillStyle = color('--accent');
            pen.fillRect(b * step, low - height(found.least) - 1, inner, 2);
        }
        if (!found.refused && !found.turned) continue;
        pen.fillStyle = color(found.refused ? '--bad' : '--warn');
        pen.fillRect(b * step, 0, Math.max(2, inner), 6);
    }
    if (!ended) return;
    pen.fillStyle = color('--bad');
    pen.fillRect(wide - Math.max(2, inner), 0, Math.max(2, inner), 6);
}

export function drawStrip(canvas, state, limit) {
    const { turn, done, rows, chosen, as } = state;
    const { pen, wide, tall } = layered(canvas, [turn, done, limit, as].join(),
        (...place) => drawColumns(...place, state, limit));
    drawZoom(pen, wide, tall, state);
    if (chosen < 0) return;
    pen.fillStyle = color('--ink');
    pen.fillRect(((chosen + 0.5) / rows) * wide - 0.75, 0, 1.5, tall);
}

/* the record at a place of the strip */
export const recordAtStrip = (x, wide, rows) =>
    Math.max(0, Math.min(rows - 1, Math.floor((x / wide) * rows)));
