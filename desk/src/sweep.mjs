/* What goes through a whole capture: the sweep, which keeps of each record what the list, the strip
 * and the plot need, and the program's text. */
import { REFUSAL } from './header.mjs';
import { MESSAGES, TELEGRAM_BYTE } from './library.mjs';
import { NO_MESSAGE, sureness } from './sure.mjs';
import { degrees, programLine, programTotal, side } from './words.mjs';

/* the most records that a page keeps these for: 440 MB */
export const MOST_RECORDS = 20000000;

/* Of each record: its first byte; its refusal; penalty, gap and visits of its search; how sure it
 * is, in thousandths; and, of a record whose word may carry a telegram or a rod position, refusal
 * and fields of that message. The tilt has its size and its direction apart, here as everywhere. */
export function emptySweep(size) {
    return {
        kind: new Uint8Array(size),
        refusal: new Uint8Array(size),
        penalty: new Uint32Array(size),
        gap: new Uint32Array(size),
        visits: new Uint32Array(size),
        sure: new Uint16Array(size),
        message: new Uint8Array(size).fill(NO_MESSAGE),
        cylinder: new Uint8Array(size),
        direction: new Uint8Array(size),
        tilt: new Uint16Array(size),
        position: new Uint8Array(size),
    };
}

/* record i of `out`: the one of the library's capture that starts there */
function sweepOne(library, out, i, start) {
    const { at, data } = library;
    const first = library.firstByte(start);
    const kind = library.kinds[first];
    const refusal = library.searchAt(start, kind);
    out.kind[i] = first;
    out.refusal[i] = refusal;
    out.penalty[i] = library.number(at.numbers);
    out.gap[i] = library.number(at.numbers + 8);
    out.visits[i] = library.number(at.numbers + 16);
    if (refusal !== REFUSAL.DONE) return start + kind.length;
    if (first === TELEGRAM_BYTE) {
        const telegram = library.telegramInPlace();
        out.message[i] = telegram.refusal;
        out.cylinder[i] = telegram.cylinder;
        out.direction[i] = telegram.direction;
        out.tilt[i] = telegram.tilt;
    }
    library.unpackAt(start, kind);
    if (MESSAGES[first] === 'rod') {
        const rod = library.rodInPlace(kind);
        out.message[i] = rod.refusal;
        out.position[i] = rod.position;
    }
    let sum = 0;
    for (let j = 0; j < kind.n; j++) sum += Math.abs(data.getInt16(at.readings + 2 * j, true));
    out.sure[i] = sureness(out.gap[i], sum, kind);
    return start + kind.length;
}

/* at most `size` records from `start` on, fewer if `enough` says so; and the next start */
export function sweep(library, start, size, enough) {
    const out = emptySweep(size);
    let count = 0;
    while (count < size) {
        start = sweepOne(library, out, count, start);
        count++;
        if (enough(count)) break;
    }
    for (const name of Object.keys(out)) out[name] = out[name].slice(0, count);
    return { out, count, start };
}

/* What the program writes for the library's capture, in parts. `clock` gives a question that is
 * answered with yes when a part has taken long: one walk may take a second. */
export function* programText(library, { records, ended }, clock) {
    let start = 0;
    let refused = 0;
    let text = '';
    let late = clock();
    for (let w = 0; w < records; w++) {
        const kind = library.kinds[library.firstByte(start)];
        const refusal = library.searchAt(start, kind);
        if (refusal) refused++;
        const bits = library.take('bits', kind.k);
        text += programLine(w, { refusal, bits, ...library.numbers() });
        start += kind.length;
        if (text.length > 1 << 16 || late()) {
            yield { done: w + 1, text };
            text = '';
            late = clock();
        }
    }
    if (ended) text += programLine(records, { refusal: ended });
    text += programTotal(records - refused, refused + (ended ? 1 : 0));
    yield { done: records, text };
}

/* ---- tables. A record whose search or message is refused has the number of that refusal and no
 * message; the size of a tilt and its direction, as a word, have columns of their own. */

/* penalty, gap and how sure, where the search has an answer */
const numbersAt = (swept, w) => (swept.refusal[w]
    ? ',,' : `${swept.penalty[w]},${swept.gap[w]},${(swept.sure[w] / 10).toFixed(1)}`);

const TABLES = {
    tilts: {
        carried: 'telegram',
        head: 'record,refusal,cylinder,tilt_degrees,direction,penalty,gap,sure_percent',
        fields(swept, w, refusal) {
            if (refusal) return ',,';
            const towards = swept.tilt[w] ? side(swept.direction[w]) : 'level';
            return `${swept.cylinder[w]},${degrees(swept.tilt[w])},${towards}`;
        },
    },
    rods: {
        carried: 'rod',
        head: 'record,refusal,m,position,penalty,gap,sure_percent',
        fields: (swept, w, refusal) =>
            `${swept.kind[w] >> 4},${refusal ? '' : swept.position[w]}`,
    },
};

/* the records that are read as telegrams, or as rod positions, in parts */
export function* table(name, { swept, done, as }) {
    const { carried, head, fields } = TABLES[name];
    let text = `${head}\n`;
    for (let w = 0; w < done; w++) {
        const first = swept.kind[w];
        if (MESSAGES[first] !== carried || !as[first]) continue;
        const refusal = swept.refusal[w] || swept.message[w];
        text += `${w},${refusal},${fields(swept, w, refusal)},${numbersAt(swept, w)}\n`;
        if (text.length > 1 << 18) {
            yield text;
            text = '';
        }
    }
    yield text;
}
