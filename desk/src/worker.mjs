/* A worker: an instance of the library. The page starts two. The sweeper holds the capture, goes
 * through all of it and writes the program's text. The reader holds the index alone: it asks for
 * the bytes around a record, and answers for single records and for readings typed by hand. So the
 * page itself never waits for a search, and one copy of a file is in memory. */
import { LARGEST_RECORD } from './header.mjs';
import { Library } from './library.mjs';
import { MOST_RECORDS, programText, sweep } from './sweep.mjs';

/* a file is read in parts of this many bytes */
const PART = 1 << 23;
/* after so many milliseconds other messages have their turn */
const SPAN = 60;
/* the parts of a text are put into a blob, which a browser may keep on a disk, at this length */
const BLOB = 1 << 24;

let module;
let version;
let library;
/* The capture that is open: its turn, its size and, with the sweeper, its library. Whatever is
 * begun for a capture goes on only while it is this one, and reports under its turn. */
let open = { turn: 0 };
let wanted = [];
let answering = false;

/* lets the messages that have come in be handled; each that waits has its own turn */
const { port1, port2 } = new MessageChannel();
const waiting = [];
port1.onmessage = () => waiting.shift()();
const others = () => new Promise((go) => {
    waiting.push(go);
    port2.postMessage(0);
});

const clock = () => {
    const until = performance.now() + SPAN;
    return () => performance.now() > until;
};

/* Bytes of the file, which the page reads: WebKit lets no worker of a page that was opened from a
 * disk do so. None for a capture that is no longer open. */
const asked = new Map();
let asks = 0;
const bytesOf = ({ turn }, from, to) => new Promise((go, stop) => {
    asks++;
    asked.set(asks, { go, stop });
    postMessage({ kind: 'bytes', turn, ask: asks, from, to });
});

/* ---- the whole capture */

async function take(mine) {
    const { size } = mine;
    mine.library.reserve(size);
    for (let from = 0; from < size; from += PART) {
        const part = await bytesOf(mine, from, Math.min(size, from + PART));
        if (open !== mine || !part) return false;
        mine.library.put(part, from);
    }
    return true;
}

async function sweepAll(mine) {
    const { turn } = mine;
    let done = 0;
    let start = 0;
    while (done < mine.loaded.records) {
        const size = Math.min(mine.loaded.records - done, 1 << 15);
        const part = sweep(mine.library, start, size, clock());
        postMessage({ kind: 'part', turn, from: done, count: part.count, swept: part.out },
            Object.values(part.out).map((array) => array.buffer));
        done += part.count;
        start = part.start;
        await others();
        if (open !== mine) return;
    }
    postMessage({ kind: 'swept', turn });
}

async function write(mine) {
    const { turn } = mine;
    const blobs = [];
    let parts = [];
    let length = 0;
    for (const { done, text } of programText(mine.library, mine.loaded, clock)) {
        parts.push(text);
        length += text.length;
        if (length > BLOB) {
            blobs.push(new Blob(parts));
            parts = [];
            length = 0;
        }
        postMessage({ kind: 'writing', turn, done });
        await others();
        if (open !== mine) return;
    }
    const blob = new Blob([...blobs, ...parts], { type: 'text/plain' });
    postMessage({ kind: 'text', turn, blob });
}

/* ---- single records */

/* the 16 records, or fewer at the end, that share an entry of the index: a capture of their own */
async function blockAt(mine, block) {
    if (mine.block === block) return true;
    const { starts, used } = mine;
    const from = Number(starts[block]);
    const to = block + 1 < starts.length ? Number(starts[block + 1]) : used;
    const bytes = await bytesOf(mine, from, to);
    if (open !== mine || !bytes) return false;
    library.load(bytes);
    Object.assign(mine, { block, from });
    return true;
}

/* what ended the whole records is read as far as a record may go */
async function endOf(mine) {
    const bytes = await bytesOf(mine, mine.used, mine.used + LARGEST_RECORD);
    if (open !== mine || !bytes) return null;
    library.load(bytes);
    mine.block = -1;
    return { ...library.answerAtEnd(0, mine.ended), start: mine.used };
}

async function answerOf(mine, w) {
    if (w >= mine.records) return endOf(mine);
    if (!await blockAt(mine, w >> 4)) return null;
    const answer = library.answerAt(library.find(w & 15));
    return { ...answer, start: mine.from + answer.start };
}

async function answerAll() {
    if (answering) return;
    answering = true;
    try {
        while (wanted.length > 0) {
            const mine = open;
            const w = wanted.shift();
            const answer = await answerOf(mine, w);
            if (answer) postMessage({ kind: 'answer', turn: mine.turn, w, answer });
            await others();
        }
    } finally {
        answering = false;
    }
}

/* ---- messages */

const HANDLERS = {
    module(data) {
        ({ module, version } = data);
        library = new Library(module, version);
        postMessage({ kind: 'ready', kinds: library.kinds.map(({ big, ...kind }) => kind) });
    },
    /* a new instance: memory that grew for an earlier capture is given back with the old one */
    async capture({ turn, size }) {
        const mine = { turn, size, library: new Library(module, version) };
        open = mine;
        if (!await take(mine)) return;
        mine.loaded = mine.library.index();
        const { records } = mine.loaded;
        const first = size ? mine.library.firstByte(0) : 0;
        const table = records <= MOST_RECORDS ? mine.library.takeTable() : new ArrayBuffer(0);
        postMessage({ kind: 'loaded', turn, first, table, ...mine.loaded }, [table]);
        if (records > 0 && records <= MOST_RECORDS) await sweepAll(mine);
        else open = { turn };
    },
    /* of a capture that the sweeper has loaded */
    index({ turn, table, records, used, ended }) {
        wanted = [];
        open = { turn, starts: new BigUint64Array(table), records, used, ended, block: -1 };
    },
    bytes({ ask, bytes, fault }) {
        const { go, stop } = asked.get(ask);
        asked.delete(ask);
        if (fault) stop(new RangeError(fault));
        else go(bytes && new Uint8Array(bytes));
    },
    /* the records that the page shows now, the chosen one first; earlier wishes are dropped */
    want({ turn, records }) {
        if (turn !== open.turn) return null;
        wanted = records;
        return answerAll();
    },
    typed({ id, r, m, readings }) {
        postMessage({ kind: 'typed', id, answer: library.answer(r, m, readings) });
    },
    telegram({ id, cylinder, direction, tilt }) {
        const made = library.writeTelegram(cylinder, direction, tilt);
        postMessage({ kind: 'telegram', id, ...made });
    },
    text({ turn }) {
        return turn === open.turn ? write(open) : null;
    },
};

/* a file that is gone or has changed, or that there is no room for; all else is a fault of ours */
const ofFile = (fault) => fault instanceof RangeError;

onmessage = async ({ data }) => {
    try {
        await HANDLERS[data.kind](data);
    } catch (fault) {
        const kind = ofFile(fault) ? 'unreadable' : 'fault';
        postMessage({ kind, turn: data.turn, text: String(fault.message || fault) });
    }
};
