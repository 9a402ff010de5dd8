/* Which records are listed and in which order, and how many there are of each kind. Rows count what
 * ended the capture, if something did, as one refused record more, as the program does. What goes
 * through all records does so in parts, so that the page answers between them: see Turns. */
import { VERDICTS, verdictAt } from './sure.mjs';

/* a part: some milliseconds */
const PART = 1 << 17;

export const noCounts = () => Object.fromEntries(VERDICTS.map((name) => [name, 0]));

/* what is listed and counted as refused: what is turned over and what is no telegram, too */
const isRefused = (judged) => ['refused', 'turned over', 'no telegram'].includes(judged);

/* the counts of the records from..to, added to those before */
export function countInto(counts, state, from, to, limit) {
    for (let w = from; w < to; w++) {
        const judged = verdictAt(state, w, limit);
        counts[judged]++;
        if (judged !== 'refused' && isRefused(judged)) counts.refused++;
    }
    return counts;
}

/* all counts; records that are swept meanwhile are counted, too */
export function* counting(state, limit) {
    const counts = noCounts();
    for (let w = 0; w < state.done; w += PART) {
        countInto(counts, state, w, Math.min(state.done, w + PART), limit);
        /* the last part ends where the sweep is, so that it goes on from there */
        if (w + PART < state.done) yield;
    }
    return counts;
}

/* the last row is there before the sweep has come to it */
const swept = (state) => (state.ended && state.done === state.records ? state.rows : state.done);

/* Least sure first: what has no answer, then by how sure it is. */
const bySure = ({ swept: d, records }, w) => (w >= records || d.refusal[w] ? 0 : 1 + d.sure[w]);

/* The rows that are listed: null for all in their order, else their numbers. Sorted by counting, in
 * two rounds: how many there are of each rank, then each at its place. Equal ones stay in order. */
export function* listing(state, limit) {
    const { show, order } = state;
    if (show === 'all' && !order) return null;
    const listed = (w) => {
        if (show === 'all') return true;
        const judged = verdictAt(state, w, limit);
        return judged === show || (show === 'refused' && isRefused(judged));
    };
    const rank = order ? (w) => bySure(state, w) : () => 0;
    const end = swept(state);
    const starts = new Uint32Array(1003);
    for (let w = 0; w < end; w++) {
        if (listed(w)) starts[rank(w) + 1]++;
        if (w % PART === PART - 1) yield;
    }
    for (let i = 1; i < starts.length; i++) starts[i] += starts[i - 1];
    const rows = new Uint32Array(starts.at(-1));
    for (let w = 0; w < end; w++) {
        if (listed(w)) rows[starts[rank(w)]++] = w;
        if (w % PART === PART - 1) yield;
    }
    return rows;
}

/* the next row from `from` in steps of `step` that is not good, or -1 */
export function nextTrouble(state, from, step, limit) {
    for (let w = from + step; w >= 0 && w < swept(state); w += step) {
        if (verdictAt(state, w, limit) !== 'good') return w;
    }
    return -1;
}

/* Long work in turns of some milliseconds. What is begun later takes the place of what was begun
 * before; work that is short is done at once. */
export class Turns {
    begin(work, done) {
        this.work = work;
        this.go(work, done);
    }

    go(work, done) {
        if (this.work !== work) return;
        const until = performance.now() + 12;
        let step;
        do step = work.next(); while (!step.done && performance.now() < until);
        if (!step.done) {
            setTimeout(() => this.go(work, done), 0);
            return;
        }
        this.work = null;
        done(step.value);
    }

    stop() {
        this.work = null;
    }
}

/* for work that may take its time */
export function whole(work) {
    let step;
    do step = work.next(); while (!step.done);
    return step.value;
}
