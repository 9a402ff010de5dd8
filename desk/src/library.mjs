/* The calls of include/cinorbis.h over one instance of the WebAssembly module. The module imports
 * nothing, so nothing in it can reach the page, a file or a network. What the header asks of a
 * caller holds here by construction: every buffer has a place of its own in the instance's memory,
 * so that no pointer is null and no two overlap. Addresses have 32 bits, lengths 64 (a BigInt). */

import { LARGEST_N, LARGEST_RECORD, REFUSAL, STRUCT } from './header.mjs';

/* what the program allows (docs/RULES.md, §8), so that the page and the program agree */
export const ALLOWANCE = 1000000;
/* the first byte of a record of RM(2,5), the code of the tilt telegram */
export const TELEGRAM_BYTE = 0x52;
/* what a record's word may carry, by its first byte: telegrams are words of RM(2,5), rod positions
 * of RM(1,1) to RM(1,8) (docs/RULES.md, §11 and §18) */
export const MESSAGES = Array.from({ length: 256 }, (_, first) => {
    if (first === TELEGRAM_BYTE) return 'telegram';
    return (first & 15) === 1 && first >= 0x11 && first <= 0x81 ? 'rod' : '';
});

/* buffers and structs with their sizes in bytes */
const PLACES = {
    numbers: STRUCT.numbers.size,
    telegram: STRUCT.telegram.size,
    front: STRUCT.front.size,
    entry: STRUCT.entry.size,
    written: STRUCT.written.size,
    bits: LARGEST_N,
    word: LARGEST_N,
    runnerUp: LARGEST_N,
    readings: 2 * LARGEST_N,
    record: LARGEST_RECORD,
    position: 8,
};

const upTo16 = (x) => (x + 15) & ~15;

/* a first byte, taken apart: its code, and its lengths as numbers and as BigInts for the calls */
function kindOf(calls, first) {
    const length = Number(calls.cinorbis_record_length(first));
    if (length === 0) return { length: 0 };
    const r = first & 15;
    const m = first >> 4;
    const n = Number(calls.cinorbis_length(m));
    const k = Number(calls.cinorbis_dimension(r, m));
    const big = { length: BigInt(length), part: BigInt(length - 1), n: BigInt(n), k: BigInt(k) };
    return { r, m, n, k, length, big };
}

export class Library {
    /* expected: the header's version; a module of another one may take other arguments */
    constructor(module, expected) {
        this.calls = new WebAssembly.Instance(module).exports;
        const version = this.calls.cinorbis_version();
        if (version !== expected) {
            throw new Error(`The decoder is of version ${version}, this page of ${expected}`);
        }
        this.memory = this.calls.memory;
        this.at = {};
        let free = upTo16(this.calls.__heap_base.value);
        for (const [name, size] of Object.entries(PLACES)) {
            this.at[name] = free;
            free = upTo16(free + size);
        }
        this.free = free;
        this.kinds = Array.from({ length: 256 }, (_, first) => kindOf(this.calls, first));
        this.load(new Uint8Array(0));
    }

    /* ---- memory */

    /* makes the views again after the memory has grown to hold `end` bytes */
    reach(end) {
        const more = end - this.memory.buffer.byteLength;
        if (more > 0) this.memory.grow(Math.ceil(more / 65536));
        this.bytes = new Uint8Array(this.memory.buffer);
        this.data = new DataView(this.memory.buffer);
    }

    /* a 64-bit number that the library wrote; none reaches 2^53 */
    number(at) {
        return this.data.getUint32(at + 4, true) * 2 ** 32 + this.data.getUint32(at, true);
    }

    /* a field of a struct that the library wrote */
    field(struct, name) {
        return this.number(this.at[struct] + STRUCT[struct][name]);
    }

    numbers() {
        return {
            penalty: this.field('numbers', 'penalty'),
            gap: this.field('numbers', 'gap'),
            visits: this.field('numbers', 'visits'),
        };
    }

    telegram(refusal) {
        return {
            refusal,
            cylinder: this.field('telegram', 'cylinder'),
            direction: this.field('telegram', 'direction'),
            tilt: this.field('telegram', 'tilt'),
        };
    }

    take(name, length) {
        return this.bytes.slice(this.at[name], this.at[name] + length);
    }

    takeReadings(n) {
        const at = this.at.readings;
        return Int16Array.from({ length: n }, (_, j) => this.data.getInt16(at + 2 * j, true));
    }

    giveReadings(readings) {
        if (readings.length > LARGEST_N) throw new RangeError(`more than ${LARGEST_N} readings`);
        readings.forEach((x, j) => this.data.setInt16(this.at.readings + 2 * j, x, true));
    }

    /* ---- words and telegrams */

    encode(r, m, bits) {
        const { at, calls } = this;
        const kind = this.kinds[16 * m + r];
        this.bytes.set(bits, at.bits);
        calls.cinorbis_encode(r, m, at.bits, BigInt(bits.length), at.word, kind.big.n, at.numbers);
        return this.take('word', kind.n);
    }

    /* the telegram that the information bits of RM(2,5) in their place carry */
    telegramInPlace() {
        const { at, calls } = this;
        return this.telegram(
            calls.cinorbis_telegram_of_bits(at.bits, 16n, at.telegram, at.numbers));
    }

    telegramOfBits(bits) {
        this.bytes.set(bits, this.at.bits);
        return this.telegramInPlace();
    }

    readTelegram(readings) {
        const { at, calls } = this;
        this.giveReadings(readings);
        return this.telegram(calls.cinorbis_telegram_read_within(
            ALLOWANCE, at.readings, BigInt(readings.length), at.telegram, at.numbers));
    }

    /* the rod position that the readings of RM(1,m) in their place show */
    rodInPlace({ m, big }) {
        const { at, calls } = this;
        const refusal = calls.cinorbis_rod_read(m, at.readings, big.n, at.position, at.numbers);
        return { refusal, position: this.number(at.position) };
    }

    readRod(m, readings) {
        this.giveReadings(readings);
        return this.rodInPlace(this.kinds[16 * m + 1]);
    }

    writeRod(m, position) {
        const { at, calls } = this;
        const { n, big } = this.kinds[16 * m + 1];
        const refusal = calls.cinorbis_rod_write(m, position, at.word, big.n, at.numbers);
        return refusal ? { refusal } : { refusal, word: this.take('word', n) };
    }

    writeTelegram(cylinder, direction, tilt) {
        const { at, calls } = this;
        const refusal = calls.cinorbis_telegram_write(
            cylinder, direction, tilt, at.word, 32n, at.numbers);
        return refusal ? { refusal } : { refusal, word: this.take('word', 32) };
    }

    /* ---- answers */

    /* the search of readings: their whole answer */
    answer(r, m, readings) {
        const { at, calls } = this;
        const kind = this.kinds[16 * m + r];
        this.giveReadings(readings);
        const refusal = calls.cinorbis_search_within(
            r, m, ALLOWANCE, at.readings, BigInt(readings.length),
            at.bits, kind.big.k, at.word, kind.big.n, at.runnerUp, at.numbers);
        return this.whole(kind, refusal, Int16Array.from(readings));
    }

    /* all that is said of readings whose search has just left its outputs in their places */
    whole(kind, refusal, readings) {
        const { r, m, n, k } = kind;
        const answer = { r, m, n, k, refusal, readings, ...this.numbers() };
        if (refusal) return answer;
        answer.bits = this.take('bits', k);
        answer.word = this.take('word', n);
        answer.runnerUp = this.take('runnerUp', k);
        answer.runnerWord = this.encode(r, m, answer.runnerUp);
        const carried = MESSAGES[16 * m + r];
        if (!carried) return answer;
        const rod = carried === 'rod';
        const read = (x) => (rod ? this.readRod(m, x) : this.readTelegram(x));
        const plain = Array.from(answer.runnerWord, (bit) => (bit ? -1 : 1));
        answer.message = { carried, ...(rod ? read(readings) : this.telegramOfBits(answer.bits)) };
        answer.nearly = { carried, ...(rod ? read(plain) : this.telegramOfBits(answer.runnerUp)) };
        if (answer.message.refusal === REFUSAL.MARKER) {
            answer.swapped = { carried, ...read(readings.map((x) => -x)) };
        }
        return answer;
    }

    /* ---- a capture in this memory */

    /* room for a capture of that length and its index: a record has 3 bytes at least, and every
     * 16th has an entry, so these are always enough */
    reserve(length) {
        const table = upTo16(this.free + length);
        const most = Math.ceil(Math.floor(length / 3) / 16);
        this.reach(table + 8 * most);
        this.capture = { at: this.free, length, table, most };
    }

    /* a part of the capture, from its byte `from` on */
    put(part, from) {
        if (from + part.length > this.capture.length) throw new RangeError('no room for this part');
        this.bytes.set(part, this.capture.at + from);
    }

    /* Makes the index of the whole records at the front of the capture. What ended them: 0 for the
     * end of the file, 1 for a first byte that no record has, 8 for a record torn off. */
    index() {
        const { at, calls, capture } = this;
        const refusal = calls.cinorbis_index_front(
            capture.at, BigInt(capture.length), capture.table, BigInt(capture.most), at.front);
        if (refusal) throw new Error(`the index is refused as ${refusal}`);
        const records = this.field('front', 'records');
        const used = this.field('front', 'used');
        capture.used = BigInt(used);
        capture.entries = BigInt(Math.ceil(records / 16));
        return { records, used, ended: this.field('front', 'ended') };
    }

    load(bytes) {
        this.reserve(bytes.length);
        this.put(bytes, 0);
        return this.index();
    }

    /* where every 16th record starts, as the index has it: 64-bit numbers */
    takeTable() {
        const { table, entries } = this.capture;
        return this.bytes.slice(table, table + 8 * Number(entries)).buffer;
    }

    firstByte(start) {
        return this.bytes[this.capture.at + start];
    }

    /* where record w starts. The index refuses a record with a pad bit set without its place, so
     * that it is reached from the table's entry for its block, as the index does. */
    find(w) {
        const { capture, at, calls } = this;
        const refusal = calls.cinorbis_index_find(
            BigInt(w), capture.at, capture.used, capture.table, capture.entries, at.entry);
        if (refusal === REFUSAL.DONE) return this.field('entry', 'start') - 1;
        if (refusal !== REFUSAL.PAD) throw new Error(`record ${w} is refused as ${refusal}`);
        let start = this.number(capture.table + 8 * (w >> 4));
        for (let i = w & 15; i > 0; i--) start += this.kinds[this.firstByte(start)].length;
        return start;
    }

    /* the search of the record that starts there; its outputs stay in their places */
    searchAt(start, kind) {
        const { at, calls, capture } = this;
        return calls.cinorbis_search_record(
            ALLOWANCE, capture.at + start, kind.big.length,
            at.bits, kind.big.k, at.word, kind.big.n, at.runnerUp, at.numbers);
    }

    /* unpacks the record that starts there into the place for readings */
    unpackAt(start, kind) {
        const { at, calls, capture } = this;
        calls.cinorbis_unpack(
            capture.at + start + 1, kind.big.part, at.readings, kind.big.n, at.numbers);
    }

    answerAt(start) {
        const kind = this.kinds[this.firstByte(start)];
        this.unpackAt(start, kind);
        const readings = this.takeReadings(kind.n);
        const answer = this.whole(kind, this.searchAt(start, kind), readings);
        const from = this.capture.at + start;
        return { ...answer, start, bytes: this.bytes.slice(from, from + kind.length) };
    }

    /* what ended the whole records, as far as it goes: its bytes, and of a record that is torn off
     * the readings that are there whole; they are unpacked with zeros for what is missing */
    answerAtEnd(start, ended) {
        const { at, capture } = this;
        const kind = this.kinds[this.firstByte(start)];
        const from = capture.at + start;
        const upto = Math.min(from + PLACES.record, capture.at + capture.length);
        const answer = { refusal: ended, start, bytes: this.bytes.slice(from, upto) };
        if (ended !== REFUSAL.TORN) return answer;
        this.bytes.fill(0, at.record, at.record + PLACES.record);
        this.bytes.set(answer.bytes, at.record);
        this.unpackAt(at.record - capture.at, kind);
        const there = Math.floor((2 * (answer.bytes.length - 1)) / 3);
        const { r, m, n, k, length } = kind;
        return { ...answer, r, m, n, k, length, readings: this.takeReadings(there) };
    }

    /* a record's bytes, for captures that are made */
    writeRecord(r, m, readings) {
        const { at, calls } = this;
        const { length, big } = this.kinds[16 * m + r];
        this.giveReadings(readings);
        const refusal = calls.cinorbis_write_record(
            r, m, 0n, at.readings, BigInt(readings.length), at.record, big.length, at.written);
        if (refusal) throw new Error(`the record is refused as ${refusal}`);
        return this.take('record', length);
    }
}
