/* calls.mjs MODULE.wasm CAPTURES MADE: the page's own code in Node, without a browser: its numbers
 * against the header, the stored captures, every way through a capture against every other, and
 * what a person types. The last line is a count. */
import { execFileSync } from 'child_process';
import { readFileSync, readdirSync } from 'fs';
import { fileURLToPath } from 'url';
import { layout } from '../../desk/src/columns.mjs';
import { countInto, counting, listing, nextTrouble, noCounts, whole }
    from '../../desk/src/filter.mjs';
import { hundredthsOf, readingsOf } from '../../desk/src/hand.mjs';
import { DEFAULT_ALLOWANCE, LARGEST_M, LARGEST_READING, LARGEST_RECORD_READING, REFUSAL, VERSION }
    from '../../desk/src/header.mjs';
import { ALLOWANCE, Library } from '../../desk/src/library.mjs';
import { against, bar, lettering } from '../../desk/src/picture.mjs';
import { heading, headline } from '../../desk/src/record.mjs';
import { VERDICTS, guess, sureness, verdict } from '../../desk/src/sure.mjs';
import { programText, sweep, table } from '../../desk/src/sweep.mjs';
import { upwards } from '../../desk/src/messages.mjs';
import { REFUSALS, degrees, group, numberOf, percent, messageText }
    from '../../desk/src/words.mjs';

const [moduleFile, captures, made] = process.argv.slice(2);
const header = readFileSync(new URL('../../include/cinorbis.h', import.meta.url), 'utf8');
const module = new WebAssembly.Module(readFileSync(moduleFile));
let passed = 0;
let failed = 0;

function fact(what, got, expected = true) {
    const [a, b] = [got, expected].map((x) => JSON.stringify(x));
    if (a === b) {
        passed++;
        return;
    }
    failed++;
    const short = (x) => String(x).slice(0, 200);
    if (failed <= 20) console.log(`${what}: ${short(a)}, expected ${short(b)}`);
}

const defined = (name) => Number(new RegExp(`CINORBIS_${name}\\b[ =]+(\\d+)`).exec(header)[1]);
const library = new Library(module, VERSION);
const read = (name) => new Uint8Array(readFileSync(name));
const textOf = (parts) => Array.from(parts).join('');

/* ---- the module and the header */

let refusedVersion = '';
try {
    new Library(module, VERSION + 1);
} catch (fault) {
    refusedVersion = fault.message;
}
fact('another version', refusedVersion.startsWith('The decoder is of version'));
fact('the version', VERSION, defined('VERSION'));
for (const [name, number] of Object.entries(REFUSAL)) fact(name, number, defined(name));
fact('the largest m', LARGEST_M, defined('LARGEST_M'));
fact('the largest reading', LARGEST_READING, defined('LARGEST_READING'));
fact('the largest reading of a record', LARGEST_RECORD_READING, defined('LARGEST_RECORD_READING'));
fact('the allowance of a search', DEFAULT_ALLOWANCE, defined('DEFAULT_ALLOWANCE'));
fact('imports', WebAssembly.Module.imports(module), []);
const reader = fileURLToPath(new URL('../../tools/header.py', import.meta.url));
const declared = execFileSync(reader, ['calls'], { encoding: 'utf8' }).trim().split('\n');
const exported = WebAssembly.Module.exports(module).map((x) => x.name);
fact('exports', exported.sort(), [...declared, '__heap_base', 'memory'].sort());
const marked = [...header.matchAll(/^CINORBIS_CALL .*?(cinorbis_\w+)\(/gm)].map((x) => x[1]);
fact('the calls that are declared', marked.sort(), declared.sort());
for (const number of [1, 6, 7, 8, 9, 13, 14, 15]) {
    fact(`words for ${number}`, Object.values(REFUSALS[number] || {}).length, 3);
}

/* a part after every record, as if each took long */
const often = () => () => true;

/* ---- captures: the program's text; the sweep, single answers and stepping agree */

function swept(loaded) {
    return sweep(library, 0, loaded.records, () => false).out;
}

function compared(name, loaded) {
    const d = swept(loaded);
    let start = 0;
    let wrong = -1;
    for (let w = 0; w < loaded.records; w++) {
        const a = library.answerAt(library.find(w));
        const t = a.message || { refusal: 255 };
        const same = a.start === start && a.refusal === d.refusal[w] && a.penalty === d.penalty[w]
            && a.gap === d.gap[w] && a.visits === d.visits[w] && t.refusal === d.message[w]
            && ['cylinder', 'direction', 'tilt', 'position'].every((x) => (t[x] || 0) === d[x][w]);
        if (!same && wrong < 0) wrong = w;
        start += a.bytes.length;
    }
    fact(`${name}: sweep, index and stepping agree`, wrong, -1);
    fact(`${name}: what is used`, start, loaded.used);
}

for (const file of readdirSync(captures).filter((x) => x.endsWith('.bin')).sort()) {
    const loaded = library.load(read(`${captures}/${file}`));
    const text = textOf(Array.from(programText(library, loaded, often), (part) => part.text));
    fact(file, text, readFileSync(`${captures}/${file.replace('.bin', '.out')}`, 'utf8'));
    if (file !== 'out_of_visits.bin') compared(file, loaded);
}
for (const file of ['telegrams.bin', 'plain.bin', 'rods.bin']) {
    compared(file, library.load(read(`${made}/${file}`)));
}
/* a table and an index that fit exactly: a file of the smallest records */
const smallest = new Uint8Array(3 * 4096);
fact('the smallest records', library.load(smallest), { records: 4096, used: 12288, ended: 0 });
fact('the last of them', library.find(4095), 12285);

/* ---- a record that is torn off, at every byte */

const first = read(`${made}/torn.bin`).slice(0, 49);
library.load(first);
const { readings: wholeReadings } = library.answerAt(0);
for (let there = 1; there < first.length; there++) {
    const loaded = library.load(first.slice(0, there));
    fact(`${there} bytes`, loaded, { records: 0, used: 0, ended: REFUSAL.TORN });
    const { readings, bytes, n } = library.answerAtEnd(0, REFUSAL.TORN);
    const count = Math.floor(((there - 1) * 8) / 12);
    fact(`${there} bytes: readings`, Array.from(readings),
        Array.from(wholeReadings.slice(0, count)));
    fact(`${there} bytes: shown`, [bytes.length, n], [there, 32]);
}
const stray = library.load(read(`${made}/stray.bin`));
fact('a stray byte', stray, { records: 20, used: 980, ended: REFUSAL.PARAMETERS });
const { bytes: strayBytes } = library.answerAtEnd(stray.used, stray.ended);
fact('its bytes', Array.from(strayBytes), [0x9f, 1, 2, 3]);

/* ---- telegrams: all that is said, saved and guessed */

const levels = [[5, 1, 1234, 'cylinder 5, 12.34° to port'],
    [0, 0, 7, 'cylinder 0, 0.07° to starboard'], [7, 0, 1500, 'cylinder 7, 15.00° to starboard'],
    [3, 0, 0, 'cylinder 3, level']];
const clean = (word, sign) => Array.from(word, (bit) => (bit ? -sign : sign) * 300);
const upright = levels.map(([c, d, t]) => clean(library.writeTelegram(c, d, t).word, 1));
levels.forEach(([cylinder, direction, tilt, text], i) => {
    const there = library.answer(2, 5, upright[i]);
    fact(text, messageText(there.message), text);
    const fields = { carried: 'telegram', refusal: 0, cylinder, direction, tilt };
    fact(`${text}: fields`, there.message, fields);
    const back = library.answer(2, 5, upright[i].map((x) => -x));
    fact(`${text}, turned over`, back.message.refusal, REFUSAL.MARKER);
    fact(`${text}, swapped back`, messageText(back.swapped), text);
    const nearly = library.readTelegram(Array.from(there.runnerWord, (bit) => (bit ? -1 : 1)));
    fact(`${text}: what it nearly was`, there.nearly, { carried: 'telegram', ...nearly });
});
const rows = [...upright, upright[0].map((x) => -x), Array(32).fill(0)];
const records = rows.map((x) => Buffer.from(library.writeRecord(2, 5, x)));
const other = Buffer.from(library.writeRecord(1, 2, [5, -2, 3, 1]));
const some = library.load(new Uint8Array(Buffer.concat([records[0], other, ...records.slice(1)])));
const all256 = new Uint8Array(256).fill(1);
const tableOf = (name, { records: done }) => textOf(table(name, { swept: swept({ records: done }),
    done, as: all256 }));
fact('the table of tilts', tableOf('tilts', some), [
    'record,refusal,cylinder,tilt_degrees,direction,penalty,gap,sure_percent',
    '0,0,5,12.34,port,0,2400,100.0',
    '2,0,0,0.07,starboard,0,2400,100.0',
    '3,0,7,15.00,starboard,0,2400,100.0',
    '4,0,3,0.00,level,0,2400,100.0',
    '5,13,,,,0,2400,100.0',
    '6,7,,,,,,', ''].join('\n'));
/* the tables that Python's are compared with, too */
for (const name of ['tilts', 'rods']) {
    const folder = new URL(`../${name}/`, import.meta.url);
    const stored = library.load(read(new URL('capture.bin', folder)));
    fact(`the stored table of ${name}`, tableOf(name, stored),
        readFileSync(new URL('table.csv', folder), 'utf8'));
}

/* ---- rod positions: every one of every code, upright, turned over, and what is next to it */

for (let m = 1; m <= 8; m++) {
    let wrong = 0;
    for (let position = 0; position < 2 ** m; position++) {
        const sent = clean(library.writeRod(m, position).word, 1);
        const { message, nearly, runnerWord } = library.answer(1, m, sent);
        const { message: over, swapped } = library.answer(1, m, sent.map((x) => -x));
        const next = library.readRod(m, Array.from(runnerWord, (bit) => (bit ? -1 : 1)));
        if (message.position !== position || message.refusal !== 0 || over.refusal !== 13
            || over.position !== 0 || swapped.position !== position || swapped.refusal !== 0
            || nearly.position !== next.position || nearly.refusal !== next.refusal) wrong++;
    }
    fact(`rod positions of RM(1,${m})`, wrong, 0);
    fact(`no position ${2 ** m} of RM(1,${m})`, library.writeRod(m, 2 ** m).refusal, REFUSAL.FIELD);
}
const rod = library.load(read(`${made}/rods.bin`));
const rodSweep = swept(rod);
fact('rods and telegrams', [0x41, 0x52].map((first) => guess(rodSweep, rod.records, 200)
    .get(first).reads), [true, true]);
const rivals = library.load(read(`${made}/rivals.bin`));
fact('rivals', [0x51, 0x52].map((first) => guess(swept(rivals), rivals.records, 200)
    .get(first).reads), [false, true]);
const words = library.load(read(`${made}/mixed.bin`));
const wordGuess = guess(swept(words), words.records, 200);
fact('plain words are no messages', [...wordGuess.values()].some((one) => one.reads), false);
const taken = { telegrams: true, plain: false, mixed: false, sample: true };
for (const [file, telegrams] of Object.entries(taken)) {
    const loaded = library.load(read(`${made}/${file}.bin`));
    const guessed = guess(swept(loaded), loaded.records, 200);
    fact(`${file}: taken for telegrams`, guessed.get(0x52).reads, telegrams);
}
const over = guess(swept(library.load(new Uint8Array(records[4]))), 1, 200);
fact('all turned over', over.get(0x52).reads);

/* ---- which records are listed */

const sea = library.load(read(`${made}/telegrams.bin`));
const state = { swept: swept(sea), ...sea, rows: sea.records, done: sea.records,
    as: { 0x52: 1 } };
const sure = (w) => (state.swept.refusal[w] ? -1 : state.swept.sure[w]);
const all = Array.from({ length: sea.records }, (_, w) => w);
const sorted = [...all].sort((a, b) => sure(a) - sure(b) || a - b);
const listed = (...what) => whole(listing(...what));
fact('all', listed({ ...state, show: 'all', order: false }, 200), null);
fact('least sure first', Array.from(listed({ ...state, show: 'all', order: true }, 200)), sorted);
const doubtful = all.filter((w) => sure(w) >= 0 && sure(w) < 200);
fact('doubtful', Array.from(listed({ ...state, show: 'doubtful', order: false }, 200)), doubtful);
fact('doubtful, sorted', Array.from(listed({ ...state, show: 'doubtful', order: true }, 200)),
    sorted.filter((w) => doubtful.includes(w)));
const refused = all.filter((w) => sure(w) < 0 || (state.swept.message[w] > 0
    && state.swept.message[w] < 255 && sure(w) >= 200));
const turned = all.filter((w) => sure(w) >= 200 && state.swept.message[w] === REFUSAL.MARKER);
const none = all.filter((w) => sure(w) >= 200 && state.swept.message[w] > REFUSAL.MARKER);
fact('refused', Array.from(listed({ ...state, show: 'refused', order: false }, 200)), refused);
const turnedOnes = { ...state, show: 'turned over', order: false };
fact('turned over', Array.from(listed(turnedOnes, 200)), turned);
const counts = noCounts();
countInto(counts, state, 0, 2500, 200);
countInto(counts, state, 2500, sea.records, 200);
const many = [refused, turned, none, doubtful].map((x) => x.length);
fact('counted', ['refused', 'turned over', 'no telegram', 'doubtful'].map((x) => counts[x]), many);
fact('counted again', whole(counting(state, 200)), counts);
fact('each once', ['good', 'refused', 'doubtful'].reduce((a, x) => a + counts[x], 0), sea.records);
fact('some of the refused', refused.length > turned.length + none.length && turned.length > 0);
fact('the turned stretch', turned.length >= 170 && turned.length <= 190);
const trouble = all.filter((w) => refused.includes(w) || doubtful.includes(w));
fact('the next trouble', nextTrouble(state, -1, 1, 200), trouble[0]);
fact('the one before', nextTrouble(state, trouble[7], -1, 200), trouble[6]);
fact('none after the last', nextTrouble(state, sea.records - 1, 1, 200), -1);
const torn = { ...state, ended: 8, rows: sea.records + 1, show: 'refused', order: false };
fact('what is torn off is refused', Array.from(listed(torn, 200)), [...refused, sea.records]);

/* ---- the verdict on a record, and its words */

const judged = [[7, 255, 0], [0, 0, 500], [0, 255, 500], [0, 0, 199], [0, 13, 200], [0, 13, 199],
    [0, 14, 500], [0, 15, 500]].map((x) => verdict(...x, 200));
fact('verdicts', judged, ['refused', 'good', 'good', 'doubtful', 'turned over', 'doubtful',
    'no telegram', 'no telegram']);
fact('no others', judged.every((x) => VERDICTS.includes(x)));
fact('a limit of 0', verdict(0, 0, 0, 0), 'good');
const heard = [[{ refusal: 7 }, 'refused', 'refused 7: tied'],
    [{ refusal: 0, message: null }, 'doubtful', 'doubtful: word found'],
    [{ refusal: 0, message: { carried: 'telegram', refusal: 13 } }, 'turned over',
        'telegram refused 13: turned over'],
    [{ refusal: 0, message: { carried: 'rod', refusal: 13 } }, 'turned over',
        'rod position refused 13: turned over'],
    [{ refusal: 0, message: { carried: 'telegram', refusal: 13 } }, 'doubtful',
        'doubtful: no telegram (13)'],
    [{ refusal: 0, message: { carried: 'telegram', refusal: 0, cylinder: 1, direction: 0,
        tilt: 216 } }, 'doubtful',
        'doubtful: cylinder 1, 2.16° to starboard']];
for (const [answer, kind, text] of heard) fact(text, headline(answer, kind), text);
const seen = ['Refused: tied', 'Word found', 'Refused: turned over', 'Refused: turned over',
    'No telegram: noise', 'Cylinder 1, 2.16° to starboard'];
fact('seen', heard.map(([answer, kind]) => heading(answer, kind)), seen);

/* ---- the list's columns: what is shown fits, and what must be there is */

const need = { number: 80, code: 60, answer: 150, sure: 48, penalty: 53, gap: 53, meter: 45 };
let fits = 0;
for (let wide = 260; wide < 1000; wide++) {
    const { shown, widths } = layout(need, wide);
    const sum = widths.reduce((a, b) => a + b, 0) + 10 * (widths.length - 1);
    const there = ['number', 'answer', 'sure', 'gap'].every((name) => shown.includes(name));
    if (there && sum <= wide) fits++;
}
fact('at every width', fits, 740);
fact('all of them', layout(need, 600).shown.length, 6);
fact('in two lines', layout(need, 300).tall);

/* ---- the stack of the module, which starts at 0: painted, it is used to a quarter at the most */

const STACK = 262144;
let deepest = 0;
for (const [r, m] of [[8, 8], [4, 8], [1, 8], [2, 5]]) {
    library.bytes.fill(0xa5, 0, STACK);
    library.answer(r, m, Array.from({ length: 2 ** m }, (_, j) => ((j * 7919) % 4001) - 2000));
    deepest = Math.max(deepest, STACK - library.bytes.findIndex((x) => x !== 0xa5));
}
fact('the stack', deepest > 1000 && deepest < STACK / 4);

/* ---- what is drawn, typed and written */

fact('a bar for 0 goes up', bar(5, 10, 100, 80), { y: 60, height: 40 });
fact('a bar for 1 goes down', bar(-5, 10, 100, 80), { y: 100, height: 40 });
fact('contradicted', [against(5, 1), against(-5, 0), against(5, 0), against(-5, 1), against(0, 1)],
    [true, true, false, false, false]);
fact('starboard is up', [upwards({ direction: [0], tilt: [5] }, 0),
    upwards({ direction: [1], tilt: [5] }, 0)], [5, -5]);
fact('numbers of bars', [lettering(40, [-400, 3]), lettering(12, [-400]), lettering(8, [-400])],
    ['level', 'upright', 'none']);
fact('numbers typed', ['12', '1,234', "1'234'567", '1.5', '1,23', '1e3', '-3', ''].map(numberOf),
    [12, 1234, 1234567, null, null, null, null, null].map((x) => (x === null ? NaN : x)));
fact('typed', readingsOf(' 5, −2;\n+3 1 ', 4).readings, [5, -2, 3, 1]);
for (const bad of ['5 -2 x 1', '5 -2 3.5 1', '5 -2 32768 1', '5 -2 -32768 1', '5 -2 1e3 1',
    '5 -2 3', '5 -2 3 1 1']) {
    fact(`typed wrong: ${bad}`, Boolean(readingsOf(bad, 4).fault) && !readingsOf(bad, 4).readings);
}
fact('the ends', readingsOf('32767 -32767', 2).readings, [32767, -32767]);
for (const [text, number] of [['12.34', 1234], ['0', 0], ['0.29', 29], ['15', 1500],
    ['1,5', 150], [' 7. ', 700]]) {
    fact(`degrees ${text}`, hundredthsOf(text), number);
}
for (const text of ['', 'x', '-1', '1.234', '1e2']) {
    fact(`degrees ${text}`, Number.isNaN(hundredthsOf(text)));
}
fact('numbers', [group(1234567), group(12), degrees(5), degrees(1234), percent(999), percent(4)],
    ['1,234,567', '12', '0.05', '12.34', '99 %', '0.4 %']);
fact('sure', [sureness(2400, 9600, library.kinds[0x52]), sureness(1, 11, library.kinds[0x21]),
    sureness(0, 0, library.kinds[0x52])], [1000, 181, 0]);
fact('the allowance', library.answer(1, 2, [5, -2, 3, 1]).visits <= ALLOWANCE);

console.log(`${passed} passed, ${failed} failed`);
process.exitCode = failed > 0 || passed === 0 ? 1 : 0;
