/* What the page adds of its own: how sure an answer is, the one verdict on a record, and what the
 * words of a capture carry. The library gives none of them. All say so where they are shown. */
import { REFUSAL } from './header.mjs';
import { MESSAGES } from './library.mjs';

/* in a sweep's arrays: a record whose word carries neither a telegram nor a rod position */
export const NO_MESSAGE = 255;

/* The gap as a part of the gap that a record has whose readings are all right and all as large as
 * the mean of these, in thousandths. That gap is the code's least distance, 2^(m-r), times the
 * mean. 1,000 is the most; a tie would have 0. */
export function sureness(gap, sum, { r, m, n }) {
    if (sum === 0) return 0;
    return Math.min(1000, Math.floor((1000 * gap * n) / (sum * 2 ** (m - r))));
}

export const sumOfSizes = (readings) => readings.reduce((sum, x) => sum + Math.abs(x), 0);

/* The verdict on a record, the same wherever one is given or counted: one of VERDICTS. `refusal` is
 * its search's, `message` its message's, or NO_MESSAGE where it is read as a plain word. A set
 * marker speaks of the link only where the word is sure: of the words that noise makes, every
 * second one has it set. */
export const VERDICTS = ['good', 'refused', 'turned over', 'no telegram', 'doubtful'];

export function verdict(refusal, message, sure, limit) {
    if (refusal !== REFUSAL.DONE) return 'refused';
    if (sure < limit) return 'doubtful';
    if (message === REFUSAL.MARKER) return 'turned over';
    return message === REFUSAL.DONE || message === NO_MESSAGE ? 'good' : 'no telegram';
}

/* Of record w of a state, in which `as` tells by first bytes which records are read as messages.
 * What ended the capture counts as a refused record, as in the program. */
export function verdictAt({ swept, records, as }, w, limit) {
    if (w >= records) return 'refused';
    return verdict(swept.refusal[w], as[swept.kind[w]] ? swept.message[w] : NO_MESSAGE,
        swept.sure[w], limit);
}

/* ---- what the words carry */

/* the other code whose words of the same length carry something else: a rod position is also the
 * word of a telegram of its length (docs/RULES.md, §17), so that one link cannot carry both */
export const rivalOf = (first) => (first & 15) === 1 ? first + 1 : first - 1;

/* Of the first 5,000 records, by first bytes: how many are sure, and of these how many carry a
 * message or one that is turned over (`fit`), and how many carry one upright. */
function countFirst(swept, looked, limit) {
    const found = new Map();
    let others = 0;
    for (let w = 0; w < looked; w++) {
        const first = swept.kind[w];
        if (!MESSAGES[first]) {
            others++;
            continue;
        }
        if (!found.has(first)) found.set(first, { sure: 0, fit: 0, upright: 0 });
        if (swept.refusal[w] || swept.sure[w] < limit) continue;
        const one = found.get(first);
        one.sure++;
        if (swept.message[w] <= REFUSAL.MARKER) one.fit++;
        if (swept.message[w] === REFUSAL.DONE) one.upright++;
    }
    return { found, others };
}

/* Telegrams: at least 19 in 20 sure ones fit; of plain words at random some 87 in 100 would. Rod
 * positions: every word is one or one turned over, so that there must be 20 at least, and the
 * marker the same in 19 of 20; of plain words every second one has it set. */
function looksLike(carried, { sure, fit, upright }) {
    if (carried === 'telegram') return sure > 0 && fit * 20 >= sure * 19;
    return sure >= 20 && Math.max(upright, sure - upright) * 20 >= sure * 19;
}

/* What each code's records look like, as a map from first bytes: messages, if at least half of the
 * first records are of codes that may carry some. Of two that cannot both be, the telegram. */
export function guess(swept, done, limit) {
    const looked = Math.min(done, 5000);
    const { found, others } = countFirst(swept, looked, limit);
    for (const [first, one] of found) {
        one.reads = others * 2 <= looked && looksLike(MESSAGES[first], one);
    }
    for (const [first, one] of found) {
        const rival = found.get(rivalOf(first));
        if (MESSAGES[first] === 'rod' && rival && rival.reads) one.reads = false;
    }
    return found;
}
