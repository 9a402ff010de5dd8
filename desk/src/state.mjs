/* The state of the page: what is open, how far it is read and what is being written. There is one,
 * made anew for each file, so that what belongs to an earlier one has nowhere to go; and one place
 * that shows it in the frame of the page. */
import { byId, make } from './dom.mjs';
import { noCounts } from './filter.mjs';
import { MESSAGES } from './library.mjs';
import { emptySweep } from './sweep.mjs';
import { group, plural } from './words.mjs';

/* phase: none (nothing is open), opening, reading (records are listed and swept), read */
export const newState = (turn = 0) => ({
    turn, phase: 'none', file: null, name: '', size: 0, first: 0,
    records: 0, rows: 0, ended: 0, used: 0, done: 0, seen: new Uint8Array(256),
    swept: emptySweep(0), counts: noCounts(), answers: new Map(), wished: '',
    chosen: -1, show: 'all', order: false, listed: null, zoom: { from: 0, to: 0 },
    /* by first bytes: what is read as a message, what the person has decided, what is guessed */
    as: new Uint8Array(256), decided: new Uint8Array(256), guessed: new Map(),
    /* the part of the text that is written; whether a table waits for the end of the sweep */
    writing: { text: null, tilts: false, rods: false },
});

export const isOpen = ({ phase }) => phase === 'reading' || phase === 'read';
export const isRead = ({ phase }) => phase === 'read';

/* whether records are read as telegrams, or as rod positions */
export const reads = ({ as }, carried) =>
    as.some((on, first) => on !== 0 && MESSAGES[first] === carried);

const percentage = (part) => `${Math.floor(100 * part)} %`;

/* it is read aloud when it changes, so that it is set only then */
function showFile({ phase, name, records, size }) {
    const said = phase === 'none' ? 'No capture is open.' : phase === 'opening' ? ': opening…'
        : `: ${plural(records, 'record')}, ${plural(size, 'byte')}`;
    if (byId('file').textContent === name + said) return;
    byId('file').replaceChildren(...(name ? [make('bdi', {}, name)] : []), said);
}

function button(id, enabled, text, title) {
    byId(id).disabled = !enabled;
    byId(id).textContent = text;
    byId(id).title = title;
}

const TABLES = [['tilts', 'telegram', 'telegrams'], ['rods', 'rod', 'rod positions']];

function showSaving(state) {
    const { text } = state.writing;
    button('save-text', isOpen(state) && text === null,
        text === null ? 'Save answers' : `Writing, ${percentage(text)}`,
        'The text that the program cinorbis writes for this capture');
    for (const [name, carried, what] of TABLES) {
        const waits = state.writing[name];
        button(`save-${name}`, isOpen(state) && reads(state, carried) && !waits,
            waits ? `Reading first, ${percentage(state.done / state.records)}` : `Save ${name}`,
            waits ? 'The table is saved as soon as all records are read'
                : `The ${what} as a table, for a spreadsheet`);
    }
    byId('save-rods').hidden = byId('save-rods').disabled && !state.writing.rods;
}

export function showState(state) {
    const open = isOpen(state);
    byId('empty').hidden = state.phase !== 'none';
    byId('loaded').hidden = !open;
    showFile(state);
    byId('progress').hidden = state.phase !== 'reading';
    byId('progress').value = state.records ? state.done / state.records : 0;
    showSaving(state);
}

/* what ended the capture is one refused record more, as in the program's last line */
export const countOf = ({ counts, ended, phase }, name) =>
    counts[name] + (name === 'refused' && ended && phase === 'read' ? 1 : 0);

/* the counts in words, the same wherever they are given */
export function countText(state) {
    const { done, records, phase } = state;
    const read = phase === 'read' ? plural(records, 'record')
        : `${group(done)} of ${group(records)} read`;
    const [refused, turned, doubtful] = ['refused', 'turned over', 'doubtful']
        .map((name) => group(countOf(state, name)));
    const over = countOf(state, 'turned over') ? ` (${turned} turned over)` : '';
    return `${read}: ${refused} refused${over}, ${doubtful} doubtful`;
}
