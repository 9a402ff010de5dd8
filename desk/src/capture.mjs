/* The view of a capture: the strip, the telegrams, the list and the chosen record. */
import { LARGEST_RECORD_READING, REFUSAL } from './header.mjs';
import { MESSAGES } from './library.mjs';
import { measure } from './columns.mjs';
import { byId, make, save } from './dom.mjs';
import { Turns, countInto, counting, listing, nextTrouble } from './filter.mjs';
import { List } from './list.mjs';
import { headline, shown, spoken, sureOf } from './record.mjs';
import { SUBJECTS, drawMessages } from './messages.mjs';
import { countOf, countText, isOpen, isRead, newState, reads, showState } from './state.mjs';
import { drawStrip, recordAtStrip } from './strip.mjs';
import { NO_MESSAGE, guess, rivalOf, verdict } from './sure.mjs';
import { MOST_RECORDS, emptySweep, table } from './sweep.mjs';
import { CARRIED, REFUSALS, bitText, group, hex, messageShort, numberOf, percent, plural }
    from './words.mjs';

/* the answers that are kept: some screens of rows */
const KEPT = 600;
/* a zoom shows this many records at the least */
const CLOSEST = 12;
/* the edges of the panel of a record, left and right together: as in the style sheet */
const DETAIL_EDGES = 34;
/* in the list: a doubtful record that carries no message */
const noise = (carried) => `${CARRIED[carried].none}: noise`;

export class Capture {
    /* reader and sweeper are the workers; notice(title, text, kind) speaks to the person;
     * tryChanges takes readings to the other view */
    constructor({ reader, sweeper, kinds, notice, tryChanges }) {
        Object.assign(this, { reader, sweeper, kinds, notice, tryChanges });
        Object.assign(this, { state: newState(), limit: 200, needs: new Map() });
        Object.assign(this, { drag: null, plots: {} });
        Object.assign(this, { frame: 0, listFrame: 0, drawnAt: 0, drawing: 0 });
        Object.assign(this, { lists: new Turns(), counts: new Turns() });
        this.list = new List(byId('list'), byId('spacer'), byId('rows'), {
            fill: (cells, row, i) => this.fill(cells, row, this.recordAt(i)),
            chose: (i) => this.choose(this.recordAt(i)),
            drawn: () => this.want(),
            needed: () => this.needed(),
        });
        this.wire();
        showState(this.state);
    }

    get turn() {
        return this.state.turn;
    }

    isOpen() {
        return isOpen(this.state);
    }

    options() {
        return { as: this.state.as, limit: this.limit };
    }

    /* ---- opening */

    /* a state of its own for each file: what still comes in for an earlier one finds no place */
    begin(phase, more = {}) {
        this.lists.stop();
        this.counts.stop();
        this.drag = null;
        this.state = { ...newState(this.state.turn + 1), ...more, phase };
        this.list.chosen = -1;
        this.list.setCount(0, 0);
        byId('list').removeAttribute('aria-busy');
        byId('detail').replaceChildren();
        byId('said').textContent = '';
        byId('under').textContent = '';
        byId('show-all').checked = true;
        this.notice('');
        showState(this.state);
    }

    open(file) {
        const { name, size } = file;
        this.begin('opening', { file, name, size, order: byId('order').checked });
        this.sweeper.postMessage({ kind: 'capture', turn: this.turn, size });
    }

    /* the bytes of the file that a worker asks for; none where another file is open by now */
    async give(worker, { turn, ask, from, to }) {
        const { state } = this;
        const reply = { kind: 'bytes', ask, bytes: null };
        try {
            if (turn === state.turn) reply.bytes = await state.file.slice(from, to).arrayBuffer();
        } catch (fault) {
            reply.fault = String(fault.message || fault);
        }
        worker.postMessage(reply, reply.bytes ? [reply.bytes] : []);
    }

    /* the sweeper has the whole file; the reader gets the index */
    loaded({ records, used, ended, first, table }) {
        if (records > MOST_RECORDS) {
            this.begin('none');
            this.notice('This capture has too many records for the page.',
                `It has ${group(records)}; the page takes up to ${group(MOST_RECORDS)}. `
                + 'The program cinorbis reads captures of any length.');
            return;
        }
        const { state, turn } = this;
        Object.assign(state, { records, used, ended, first, rows: records + (ended ? 1 : 0) });
        if (records === 0) {
            this.begin('none');
            this.tellNothing(state);
            return;
        }
        this.reader.postMessage({ kind: 'index', turn, table, records, used, ended }, [table]);
        state.swept = emptySweep(records);
        state.zoom = { from: 0, to: records };
        state.phase = 'reading';
        this.tellEnd();
        this.reread();
        this.refilter(0);
        this.list.choose(0);
    }

    /* the file is gone or has changed, or there is no room for it */
    unreadable({ text }) {
        this.begin('none');
        this.notice('This file cannot be read.', text);
    }

    /* a file without one whole record */
    tellNothing({ size, ended, first }) {
        if (size === 0) return this.notice('This file is empty.', 'It holds no record.');
        if (ended === REFUSAL.TORN) {
            const { length } = this.kinds[first];
            return this.notice('This file holds no whole record.',
                `It begins like a record of ${plural(length, 'byte')} and ends after `
                + `${plural(size, 'byte')}. `
                + 'It is not a capture, or only the beginning of one.');
        }
        return this.notice('This file is not a capture.',
            `Its first byte is ${hex(first)} (hexadecimal), and no record begins so.`);
    }

    tellEnd() {
        const { ended, used, size, records } = this.state;
        if (ended === REFUSAL.DONE) return;
        const { short, means, do: advice } = REFUSALS[ended];
        this.notice(`Record ${group(records)} is ${short}.`,
            `${means} This is at byte ${group(used)} of ${group(size)}, after `
            + `${plural(records, 'whole record')}, which are all shown. ${advice}`, 'warn');
    }

    /* ---- what the sweep brings */

    part({ from, count, swept }) {
        const { state } = this;
        for (const name of Object.keys(swept)) state.swept[name].set(swept[name], from);
        state.done = from + count;
        for (const first of swept.kind) state.seen[first] = 1;
        countInto(state.counts, state, from, state.done, this.limit);
        if (from < 5000) this.guessKinds();
        showState(state);
        /* drawing goes through all that is swept: it takes a tenth of the time at the most */
        const now = performance.now();
        if (now - this.drawnAt > Math.max(300, 10 * this.drawing)) this.refresh();
    }

    swept() {
        const { state } = this;
        state.phase = 'read';
        showState(state);
        this.showKinds();
        if (this.isFiltered()) this.refilter();
        this.redraw();
        for (const name of ['tilts', 'rods']) if (state.writing[name]) this.writeTable(name);
    }

    /* what is listed is only listed anew when that is done */
    refresh() {
        if (this.isFiltered() && !this.lists.work) this.refilter();
        this.redraw();
    }

    /* ---- messages or plain words, code by code */

    guessKinds() {
        const { state } = this;
        state.guessed = guess(state.swept, state.done, this.limit);
        let changed = false;
        for (const [first, { reads: on }] of state.guessed) {
            if (state.decided[first] || Boolean(state.as[first]) === on) continue;
            state.as[first] = on ? 1 : 0;
            changed = true;
        }
        if (changed) this.reread();
        this.showKinds();
    }

    /* where records are read as something else */
    reread() {
        const { state } = this;
        const any = state.as.includes(1);
        byId('plot-box').hidden = !any;
        byId('zoom').hidden = !any;
        byId('key-turned').hidden = !any;
        byId('plot').hidden = !reads(state, 'telegram');
        byId('rods').hidden = !reads(state, 'rod');
        if (!reads(state, 'telegram')) state.writing.tilts = false;
        if (!reads(state, 'rod')) state.writing.rods = false;
        if (!any && (state.show === 'turned over' || state.show === 'no telegram')) this.showAll();
        showState(state);
        this.recount();
        this.refilter();
        this.showChosen();
        this.redraw();
    }

    /* What the person says. Two kinds of words of one length cannot be told apart on one link. */
    decide(first, on) {
        const { state } = this;
        const rival = rivalOf(first);
        if (on && state.as[rival]) {
            const [rod, telegram] = first < rival ? [first, rival] : [rival, first];
            this.notice(`${this.codeName(rod)} as rod positions and ${this.codeName(telegram)} as `
                + 'telegrams cannot both be.', 'Every rod position is also the word of a telegram '
                + 'of its length, with the same marker: on one link nothing would tell them apart. '
                + `Read those of ${this.codeName(rival)} as plain words first.`, 'warn');
            this.showKinds();
            return;
        }
        state.decided[first] = 1;
        state.as[first] = on ? 1 : 0;
        this.notice('');
        this.reread();
        this.showKinds();
    }

    codeName(first) {
        return `RM(${this.kinds[first].r},${this.kinds[first].m})`;
    }

    sayGuess(first) {
        const { guessed, decided, phase, done } = this.state;
        if (decided[first]) return 'as you chose';
        const one = guessed.get(first);
        if (!one) return '';
        const few = phase === 'read' || done > 5000 ? '' : ' so far';
        const [many, what] = MESSAGES[first] === 'rod' ? [one.upright, 'have the marker at 0']
            : [one.fit, 'fit'];
        return `guessed by this page: ${group(many)} of ${plural(one.sure, 'sure record')} `
            + `${what}${few}`;
    }

    /* a choice for each code that is there and may carry messages */
    showKinds() {
        const { state } = this;
        const firsts = MESSAGES.flatMap((carried, first) =>
            (carried && state.seen[first] ? [first] : []));
        byId('messages').hidden = firsts.length === 0;
        const there = byId('kinds').dataset.firsts;
        if (there !== `${state.turn}: ${firsts}`) {
            byId('kinds').dataset.firsts = `${state.turn}: ${firsts}`;
            byId('kinds').replaceChildren(...firsts.map((first) => this.kindChoice(first)));
        }
        byId('kinds').classList.toggle('many', firsts.length > 3);
        for (const first of firsts) {
            byId(`as-${hex(first)}-message`).checked = state.as[first] === 1;
            byId(`as-${hex(first)}-word`).checked = state.as[first] === 0;
            byId(`guess-${hex(first)}`).textContent = this.sayGuess(first);
        }
    }

    kindChoice(first) {
        const name = `as-${hex(first)}`;
        const title = `Records of ${this.codeName(first)} are`;
        const choice = (key, text, on) => {
            const input = make('input', { type: 'radio', name, id: `${name}-${key}` });
            input.onchange = () => this.decide(first, on);
            return make('label', {}, input, make('span', {}, text));
        };
        return make('span', { class: 'line' }, make('h2', {}, title),
            make('span', { class: 'choice', role: 'radiogroup', 'aria-label': title },
                choice('message', CARRIED[MESSAGES[first]].many, true),
                choice('word', 'plain words', false)),
            make('span', { class: 'soft', id: `guess-${hex(first)}` }));
    }

    /* ---- the list */

    recordAt(i) {
        return this.state.listed ? this.state.listed[i] : i;
    }

    isFiltered() {
        return this.state.show !== 'all' || this.state.order;
    }

    recount() {
        const { state } = this;
        this.counts.begin(counting(state, this.limit), (counts) => {
            state.counts = counts;
            this.redraw();
        });
    }

    /* lists again, and keeps the chosen record in the list if it is still there */
    refilter(top, then = () => {}) {
        const { state } = this;
        byId('list').setAttribute('aria-busy', true);
        this.lists.begin(listing(state, this.limit), (rows) => {
            byId('list').removeAttribute('aria-busy');
            state.listed = rows;
            this.list.chosen = rows ? rows.indexOf(state.chosen) : state.chosen;
            this.list.setCount(rows ? rows.length : state.rows, top);
            const none = rows !== null && rows.length === 0;
            byId('none').hidden = !none;
            byId('none').textContent = !none ? ''
                : `No record is ${state.show}${isRead(state) ? '' : ' so far'}.`;
            then();
        });
    }

    filter(show) {
        this.state.show = show;
        this.refilter(0, () => {
            if (this.list.chosen >= 0) this.list.mark(this.list.chosen);
        });
    }

    showAll() {
        byId('show-all').checked = true;
        byId('order').checked = false;
        Object.assign(this.state, { show: 'all', order: false });
    }

    setOrder(on) {
        this.state.order = on;
        this.refilter(0);
    }

    setLimit(percentage) {
        this.limit = Math.round(10 * Math.max(0, Math.min(100, percentage)));
        this.recount();
        if (this.state.done) this.guessKinds();
        if (this.isFiltered()) this.refilter();
        this.redraw();
        this.showChosen();
    }

    /* the head of the column with the answers */
    answerHead() {
        const { state } = this;
        const [tilts, rods] = ['telegram', 'rod'].map((carried) => reads(state, carried));
        if (tilts) return rods ? 'Cylinder: tilt, or rod' : 'Cylinder: tilt';
        return rods ? 'Rod position' : 'Information bits';
    }

    /* How wide the columns have to be for all that may stand in them. The largest penalty and the
     * largest gap are at most the sum of the sizes of all readings. */
    needed() {
        const { rows, seen, as } = this.state;
        const m = Math.max(0, seen.lastIndexOf(1)) >> 4;
        const largest = group(LARGEST_RECORD_READING * 2 ** m);
        const key = [rows, largest, as, getComputedStyle(byId('list')).font].join();
        if (!this.needs.has(key)) {
            const tilt = { carried: 'telegram', refusal: 0, cylinder: 0, direction: 0, tilt: 1000 };
            const said = [...Object.values(REFUSALS).map(({ short }) => short), noise('telegram')];
            this.needs.clear();
            this.needs.set(key, measure(byId('list').parentNode, {
                number: ['Record', group(rows)],
                code: ['Code', 'RM(0,0)'],
                answer: [this.answerHead(), '00000000', ...said,
                    ...(as.includes(1) ? [messageShort(tilt)] : [])],
                sure: ['Sure', '100 %', '0.0 %'],
                penalty: ['Penalty', largest],
                gap: ['Gap', largest],
            }));
        }
        return this.needs.get(key);
    }

    /* what a row says: from the sweep as far as it goes, else from the answer of the record */
    fill(cells, row, w) {
        const text = this.rowText(w);
        cells[0].textContent = group(w);
        cells[1].textContent = text.code || '';
        cells[2].textContent = text.bits ? this.list.cut(text.bits) : text.answer;
        this.fillSure(cells[3], text.sure);
        cells[4].textContent = text.penalty || '';
        cells[5].textContent = text.gap || '';
        cells[2].classList.toggle('mono', Boolean(text.bits));
        row.className = `row ${(text.verdict || '').replace(' ', '-')}`;
        row.setAttribute('aria-label', `Record ${group(w)}: ${text.said || text.answer}`);
    }

    fillSure(cell, sure) {
        if (sure === undefined) {
            cell.replaceChildren();
            return;
        }
        if (!cell.firstChild) cell.append(make('i', { class: 'meter' }, make('b')), make('span'));
        cell.firstChild.firstChild.style.width = `${sure / 10}%`;
        cell.lastChild.textContent = percent(sure);
    }

    /* for the eye in short, and the same verdict in words for the ear */
    rowText(w) {
        const { state } = this;
        const known = w >= state.records ? { refusal: state.ended }
            : w < state.done ? this.fromSweep(w) : this.fromAnswer(w);
        if (!known) return { answer: '…' };
        const { refusal, first, sure, penalty, gap } = known;
        const message = known.message && state.as[first] ? known.message : null;
        const judged = verdict(refusal, message ? message.refusal : NO_MESSAGE, sure, this.limit);
        const code = first === undefined ? '' : this.codeName(first);
        const row = { code, verdict: judged, said: headline({ refusal, message }, judged) };
        if (refusal) return { ...row, answer: REFUSALS[refusal].short };
        Object.assign(row, { sure, penalty: group(penalty), gap: group(gap) });
        row.said += `, sure ${percent(sure)}, gap ${row.gap}`;
        if (message) {
            const none = judged === 'doubtful' && message.refusal;
            return { ...row, answer: none ? noise(message.carried) : messageShort(message) };
        }
        const answer = state.answers.get(w);
        return { ...row, answer: '…', bits: answer ? bitText(answer.bits) : '' };
    }

    fromSweep(w) {
        const d = this.state.swept;
        const message = d.message[w] === NO_MESSAGE ? null : {
            carried: MESSAGES[d.kind[w]],
            refusal: d.message[w],
            cylinder: d.cylinder[w],
            direction: d.direction[w],
            tilt: d.tilt[w],
            position: d.position[w],
        };
        return { first: d.kind[w], refusal: d.refusal[w], penalty: d.penalty[w], gap: d.gap[w],
            sure: d.sure[w], message };
    }

    fromAnswer(w) {
        const answer = this.state.answers.get(w);
        if (!answer) return null;
        return { ...answer, first: 16 * answer.m + answer.r, sure: sureOf(answer) };
    }

    /* asks for the answers that are in sight and not there, the chosen one first */
    want() {
        const { state } = this;
        const missing = (w) => w >= 0 && w < state.rows && !state.answers.has(w);
        const open = (w) => {
            const { answer, bits } = this.rowText(w);
            return answer === '…' && !bits;
        };
        const needed = this.list.inSight().map((i) => this.recordAt(i))
            .filter((w) => missing(w) && open(w));
        if (missing(state.chosen)) needed.unshift(state.chosen);
        const wish = needed.join();
        if (needed.length === 0 || wish === state.wished) return;
        state.wished = wish;
        this.reader.postMessage({ kind: 'want', turn: state.turn, records: needed });
    }

    answered({ w, answer }) {
        const { state } = this;
        if (state.answers.size >= KEPT) state.answers.delete(state.answers.keys().next().value);
        state.answers.set(w, answer);
        state.wished = '';
        if (w === state.chosen) this.showChosen();
        this.redrawList();
    }

    /* ---- the chosen record */

    choose(w) {
        this.state.chosen = w;
        this.showChosen();
        this.want();
        this.redraw();
    }

    showChosen() {
        const { chosen, name, answers } = this.state;
        if (chosen < 0) return;
        const answer = answers.get(chosen);
        const heading = make('h2', {}, `Record ${group(chosen)}`);
        if (!answer) {
            byId('detail').replaceChildren(make('div', { class: 'title' }, heading),
                make('p', { class: 'soft waiting' }, 'Searching…'));
            return;
        }
        const bytes = make('details', {}, make('summary', {}, 'Bytes of the record'),
            make('p', { class: 'hex' }, Array.from(answer.bytes, hex).join(' ')));
        const source = make('p', { class: 'print-only' }, 'Cinorbis desk: ',
            make('bdi', {}, name), `, record ${group(chosen)}`);
        const wide = byId('detail').clientWidth - DETAIL_EDGES;
        byId('detail').replaceChildren(this.title(heading, answer),
            ...shown(answer, { ...this.options(), wide }), bytes, source);
        this.drawnWide = wide;
        byId('said').textContent = `Record ${group(chosen)}: ${spoken(answer, this.options())}`;
    }

    /* the picture of a record is drawn for the width that it has */
    resized() {
        const wide = byId('detail').clientWidth - DETAIL_EDGES;
        if (this.isOpen() && wide > 0 && wide !== this.drawnWide) this.showChosen();
        this.redraw();
    }

    title(heading, answer) {
        const { chosen } = this.state;
        const { r, m, n, start } = answer;
        const code = n === undefined ? ''
            : `RM(${r},${m}), ${plural(n, 'reading')}, `;
        const change = make('button', {}, 'Try changes');
        change.title = 'Takes these readings to “Type readings”';
        change.onclick = () => this.tryChanges(answer, chosen);
        change.hidden = !answer.readings || answer.readings.length !== n;
        const print = make('button', {}, 'Print');
        print.onclick = () => window.print();
        return make('div', { class: 'title' }, heading,
            make('span', { class: 'soft' }, `${code}at byte ${group(start)}`),
            make('span', { class: 'buttons' }, change, print));
    }

    go(w) {
        const { state, list } = this;
        if (!Number.isInteger(w) || w < 0 || w >= state.rows) {
            this.notice('There is no such record.',
                `This capture has the records 0 to ${group(state.rows - 1)}.`, 'warn');
            return;
        }
        const { listed } = state;
        if (this.isFiltered() && !(listed && listed.includes(w))) {
            this.showAll();
            this.refilter();
        }
        const i = state.listed ? state.listed.indexOf(w) : w;
        list.scrollTo(i - Math.floor(list.fits() / 2));
        list.choose(i);
        this.follow(w);
    }

    seek(step) {
        const w = nextTrouble(this.state, this.state.chosen, step, this.limit);
        if (w >= 0) this.go(w);
        else byId('said').textContent = 'No other record is refused or doubtful there.';
    }

    /* ---- drawing */

    redrawList() {
        if (!this.listFrame) {
            this.listFrame = requestAnimationFrame(() => {
                this.listFrame = 0;
                this.list.draw();
            });
        }
    }

    redraw() {
        if (!this.frame) this.frame = requestAnimationFrame(() => this.draw());
    }

    draw() {
        const { state, limit } = this;
        this.frame = 0;
        /* nothing is open, or another view is shown */
        if (!isOpen(state) || byId('strip').clientWidth === 0) return;
        const begun = performance.now();
        this.drawCounts();
        drawStrip(byId('strip'), state, limit);
        byId('head-answer').textContent = this.answerHead();
        if (state.as.includes(1)) this.drawPlots();
        this.list.resize();
        this.drawnAt = performance.now();
        this.drawing = this.drawnAt - begun;
    }

    /* the counts, and the kinds that may be listed by themselves with how many there are */
    drawCounts() {
        const { state } = this;
        const text = countText(state);
        byId('counts').textContent = text;
        byId('strip').setAttribute('aria-label',
            `How sure the records are, from first to last. ${text}`);
        for (const radio of document.querySelectorAll('input[name=show]')) {
            const name = radio.value;
            if (name === 'all') continue;
            const many = countOf(state, name);
            radio.nextElementSibling.lastChild.textContent = group(many);
            const always = name === 'refused' || name === 'doubtful' || state.show === name;
            radio.parentNode.hidden = !always && many === 0;
        }
    }

    /* tilts and rod positions, each where there are some, and one key for both */
    drawPlots() {
        const { state } = this;
        const swatch = (name) => make('i', { class: name });
        const key = [];
        let [turned, dense, doubtful] = [false, false, false];
        for (const [id, name] of [['plot', 'tilts'], ['rods', 'rods']]) {
            if (byId(id).hidden) continue;
            const subject = SUBJECTS[name];
            const drag = this.drag && this.drag.id === id ? this.drag : null;
            const plot = drawMessages(byId(id), subject, state, this.limit, drag);
            this.plots[id] = plot;
            for (const line of plot.seen) key.push(swatch(`c${line}`), `${subject.name(line)} `);
            turned ||= plot.turned;
            dense ||= plot.dense && plot.doubtful;
            doubtful ||= plot.doubtful;
        }
        if (turned) key.push(swatch('turned'), 'link turned over ');
        if (dense) key.push(swatch('noise'), 'mostly doubtful ');
        else if (doubtful) key.push('○ doubtful ');
        byId('cylinders').replaceChildren(...key);
        const whole = state.zoom.to - state.zoom.from >= state.records;
        byId('zoom-out').disabled = whole;
        byId('zoom-all').disabled = whole;
        byId('zoom-in').disabled = state.zoom.to - state.zoom.from <= CLOSEST;
    }

    /* ---- zoom */

    zoomTo(from, to) {
        const { records } = this.state;
        const size = Math.min(records, Math.max(CLOSEST, Math.round(to - from)));
        const start = Math.round((from + to - size) / 2);
        const first = Math.max(0, Math.min(records - size, start));
        this.state.zoom = { from: first, to: first + size };
        this.redraw();
    }

    /* around the chosen record where it is in sight */
    zoomBy(factor) {
        const { zoom, chosen } = this.state;
        const inside = chosen >= zoom.from && chosen < zoom.to;
        const middle = inside && factor < 1 ? chosen + 0.5 : (zoom.from + zoom.to) / 2;
        const half = ((zoom.to - zoom.from) * factor) / 2;
        this.zoomTo(middle - half, middle + half);
    }

    zoomAll() {
        this.zoomTo(0, this.state.records);
    }

    /* a record that is gone to comes into the plot's sight */
    follow(w) {
        const { zoom, records } = this.state;
        if (w >= records || (w >= zoom.from && w < zoom.to)) return;
        const half = (zoom.to - zoom.from) / 2;
        this.zoomTo(w - half, w + half);
    }

    /* ---- saving */

    baseName() {
        return this.state.name.replace(/\.[^.]*$/, '') || 'capture';
    }

    saveText() {
        this.state.writing.text = 0;
        showState(this.state);
        this.sweeper.postMessage({ kind: 'text', turn: this.turn });
    }

    writing({ done }) {
        this.state.writing.text = done / this.state.records;
        showState(this.state);
    }

    text({ blob }) {
        this.state.writing.text = null;
        showState(this.state);
        save(blob, `${this.baseName()}.txt`);
    }

    /* the whole table or none: it waits until all records are read */
    saveTable(name) {
        this.state.writing[name] = true;
        showState(this.state);
        if (isRead(this.state)) this.writeTable(name);
    }

    /* in parts, so that the page answers while a long table is written */
    async writeTable(name) {
        const { state } = this;
        const parts = [];
        for (const part of table(name, state)) {
            parts.push(part);
            await new Promise((go) => setTimeout(go, 0));
            if (this.state !== state || !state.writing[name]) return;
        }
        state.writing[name] = false;
        showState(state);
        save(new Blob(parts, { type: 'text/csv' }), `${this.baseName()}-${name}.csv`);
    }

    /* ---- what the person does */

    wire() {
        const radios = (name, act) => document.querySelectorAll(`input[name=${name}]`)
            .forEach((radio) => { radio.onchange = () => act(radio.value); });
        radios('show', (value) => this.filter(value));
        byId('order').onchange = (e) => this.setOrder(e.target.checked);
        byId('limit').oninput = (e) => {
            if (e.target.value !== '') this.setLimit(Number(e.target.value));
        };
        byId('go').onsubmit = (e) => {
            e.preventDefault();
            this.notice('');
            this.go(numberOf(byId('number').value));
        };
        byId('save-text').onclick = () => this.saveText();
        for (const name of ['tilts', 'rods']) {
            byId(`save-${name}`).onclick = () => this.saveTable(name);
        }
        byId('zoom-in').onclick = () => this.zoomBy(0.5);
        byId('zoom-out').onclick = () => this.zoomBy(2);
        byId('zoom-all').onclick = () => this.zoomAll();
        byId('strip').onclick = (e) =>
            this.go(recordAtStrip(e.offsetX, byId('strip').clientWidth, this.state.rows));
        for (const id of ['plot', 'rods']) this.wirePlot(byId(id), id);
    }

    /* a press on the plot goes to a record, a drag zooms; keys do the same */
    wirePlot(plot, id) {
        plot.onpointerdown = (e) => {
            plot.setPointerCapture(e.pointerId);
            this.drag = { id, from: e.offsetX, to: e.offsetX };
        };
        plot.onpointermove = (e) => {
            this.sayUnder(this.plots[id].record(e.offsetX));
            if (!this.drag) return;
            this.drag.to = e.offsetX;
            this.redraw();
        };
        plot.onpointerup = () => {
            const { drag } = this;
            if (!drag) return;
            this.drag = null;
            if (Math.abs(drag.to - drag.from) < 5) this.go(this.plots[id].record(drag.to));
            else {
                const [from, to] = [drag.from, drag.to].sort((a, b) => a - b);
                this.zoomTo(this.plots[id].record(from), this.plots[id].record(to) + 1);
            }
        };
        plot.onpointercancel = () => { this.drag = null; };
        plot.onpointerleave = () => { byId('under').textContent = ''; };
        plot.onkeydown = (e) => {
            const step = { ArrowLeft: -1, ArrowRight: 1 }[e.key];
            const act = { '+': () => this.zoomBy(0.5), '=': () => this.zoomBy(0.5),
                '-': () => this.zoomBy(2), 0: () => this.zoomAll() }[e.key];
            if (e.ctrlKey || e.metaKey || e.altKey || (!step && !act)) return;
            e.preventDefault();
            if (act) act();
            else this.go(Math.max(0, Math.min(this.state.records - 1, this.state.chosen + step)));
        };
    }

    sayUnder(w) {
        const { state } = this;
        if (w >= state.done) return;
        const { answer, sure } = this.rowText(w);
        byId('under').textContent =
            `Record ${group(w)}: ${answer}${sure === undefined ? '' : `, sure ${percent(sure)}`}`;
    }
}
