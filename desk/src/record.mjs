/* What is said of one answer: the verdict, its numbers, the picture, the runner-up. */
import { REFUSAL } from './header.mjs';
import { make } from './dom.mjs';
import { against, picture } from './picture.mjs';
import { NO_MESSAGE, sumOfSizes, sureness, verdict } from './sure.mjs';
import { CARRIED, REFUSALS, TERMS, bitText, capital, group, hex, messageText, percent, plural }
    from './words.mjs';

export const sureOf = (answer) =>
    (answer.refusal ? 0 : sureness(answer.gap, sumOfSizes(answer.readings), answer));

const count = (answer, test) =>
    Array.from(answer.word).reduce((sum, bit, j) => sum + test(bit, j), 0);

/* a word that is explained below it when it is pressed */
function term(key) {
    const [name, text] = TERMS[key];
    const button = make('button', { class: 'term', 'aria-expanded': 'false' }, name);
    button.onclick = () => {
        const open = button.getAttribute('aria-expanded') === 'true';
        const box = button.closest('.explains');
        box.querySelectorAll('.term').forEach((x) => x.setAttribute('aria-expanded', 'false'));
        button.setAttribute('aria-expanded', !open);
        const shown = box.querySelector('.explained');
        shown.hidden = open;
        shown.replaceChildren(make('b', {}, `${name}. `), text);
    };
    return button;
}

/* ---- the verdict */

/* The verdict in words, with the number of a refusal: what a row of the list is called and what a
 * screen reader hears. `message` is null where a record is read as a word. */
export function headline({ refusal, message }, judged) {
    if (refusal) return `refused ${refusal}: ${REFUSALS[refusal].short}`;
    const doubt = judged === 'doubtful' ? 'doubtful: ' : '';
    if (!message) return `${doubt}word found`;
    if (!message.refusal) return `${doubt}${messageText(message)}`;
    const { one, none } = CARRIED[message.carried];
    return doubt ? `${doubt}${none} (${message.refusal})`
        : `${one} refused ${message.refusal}: ${REFUSALS[message.refusal].short}`;
}

/* the same as the panel's heading */
export function heading({ refusal, message }, judged) {
    if (refusal) return `Refused: ${REFUSALS[refusal].short}`;
    if (!message) return 'Word found';
    if (!message.refusal) return capital(messageText(message));
    if (judged === 'doubtful') return `${capital(CARRIED[message.carried].none)}: noise`;
    return `Refused: ${REFUSALS[message.refusal].short}`;
}

/* an answer with the verdict on it; `as` tells by first bytes what is read as a message */
function judge(answer, { as, limit }) {
    const message = answer.message && as[16 * answer.m + answer.r] ? answer.message : null;
    const sure = sureOf(answer);
    const judged = verdict(answer.refusal, message ? message.refusal : NO_MESSAGE, sure, limit);
    return { sure, message, judged };
}

/* for a screen reader: the same verdict in one line; the bits where they are few */
export function spoken(answer, options) {
    const { message, judged } = judge(answer, options);
    const head = headline({ ...answer, message }, judged);
    const bits = answer.bits && !message && answer.k <= 32 ? `, bits ${bitText(answer.bits)}` : '';
    return `${head}${bits}.`;
}

const box = (kind, title, ...lines) => make('div', { class: `verdict ${kind}` },
    make('b', {}, title), ...lines.filter(Boolean).map((line) => make('p', {}, line)));

function refusedBox({ refusal, penalty, readings, n, bytes, length }) {
    const { means, do: advice } = REFUSALS[refusal];
    let more = null;
    if (refusal === REFUSAL.TIED) more = `Both words have the penalty ${group(penalty)}.`;
    if (refusal === REFUSAL.TORN) {
        more = `${group(bytes.length)} of its ${plural(length, 'byte')} are there, and with them `
            + `${readings.length} of its ${plural(n, 'reading')}.`;
    }
    if (refusal === REFUSAL.PARAMETERS) more = `The first byte is ${hex(bytes[0])} (hexadecimal).`;
    return box('no', heading({ refusal }), means, more, advice);
}

/* how well the word fits, in a sentence */
function fit(answer, doubtful) {
    const wrong = count(answer, (bit, j) => against(answer.readings[j], bit));
    const first = wrong === 0 ? 'All readings agree with the word found.'
        : `${plural(wrong, 'reading')} of ${answer.n} disagree${wrong === 1 ? 's' : ''} `
            + 'with the word found.';
    return doubtful ? `${first} Doubtful: another word fits nearly as well.` : first;
}

function answeredBox(answer, { message, judged }) {
    const head = heading({ ...answer, message }, judged);
    const doubtful = judged === 'doubtful';
    if (!message || message.refusal === REFUSAL.DONE) {
        return box(doubtful ? 'low' : 'good', head, fit(answer, doubtful));
    }
    const { means, do: advice } = REFUSALS[message.refusal];
    if (doubtful) {
        return box('low', head, `${means} But the word is too doubtful to blame the link.`);
    }
    const { swapped } = answer;
    const back = swapped && swapped.refusal === REFUSAL.DONE
        ? `With plus and minus swapped back it would say: ${messageText(swapped)}.` : null;
    return box('no', head, `${means} ${advice}`, back, fit(answer, false));
}

/* ---- the rest */

function numbers(answer, sure) {
    const figure = (key, value) =>
        make('div', {}, make('dt', {}, term(key)), make('dd', {}, value));
    return make('div', { class: 'explains' },
        make('dl', { class: 'numbers' }, figure('penalty', group(answer.penalty)),
            figure('gap', group(answer.gap)), figure('sure', percent(sure)),
            figure('visits', group(answer.visits))),
        make('p', { class: 'explained', hidden: '' }));
}

/* the bits, and what it nearly was; up to 16 places are named */
function facts(answer, message) {
    const places = Array.from(answer.word).flatMap((bit, j) =>
        (answer.runnerWord[j] !== bit ? [j] : []));
    const named = places.length > 16 ? '' : `: ${places.join(', ')}`;
    const { nearly } = answer;
    const said = !message ? '' : capital(nearly.refusal
        ? `${CARRIED[nearly.carried].none}. ` : `${messageText(nearly)}. `);
    const row = (key, ...parts) => [make('dt', {}, term(key)), make('dd', {}, ...parts)];
    return make('div', { class: 'explains' },
        make('dl', { class: 'facts' },
            ...row('bits', make('span', { class: 'mono' }, bitText(answer.bits))),
            ...row('runner', said, make('span', { class: 'mono' }, bitText(answer.runnerUp)),
                make('span', { class: 'soft' }, ` penalty ${group(answer.penalty + answer.gap)}, `
                    + `differs in ${plural(places.length, 'place')}${named}`))),
        make('p', { class: 'explained', hidden: '' }));
}

const legend = (word) => make('p', { class: 'key' },
    make('i', { class: 'zero' }), 'speaks for 0 ', make('i', { class: 'one' }), 'speaks for 1 ',
    ...(word ? [make('i', { class: 'against' }), 'disagrees with the word ',
        make('i', { class: 'frame' }), 'the runner-up differs'] : []));

/* all of it, as elements; `limit` in thousandths is what is doubtful, `wide` the width there is */
export function shown(answer, { as, limit, wide }) {
    const found = judge(answer, { as, limit });
    const drawn = answer.readings && answer.readings.length > 0
        ? [picture(answer, wide), legend(answer.word)] : [];
    if (answer.refusal) return [refusedBox(answer), ...drawn];
    return [answeredBox(answer, found), numbers(answer, found.sure), ...drawn,
        facts(answer, found.message)];
}
