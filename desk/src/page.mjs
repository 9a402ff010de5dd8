/* The whole: start, the two workers, the views, the keys, opening files. */
import { Capture } from './capture.mjs';
import { byId, forgetColors, make } from './dom.mjs';
import { Hand } from './hand.mjs';
import { TELEGRAM_BYTE } from './library.mjs';
import { REFUSALS, TERMS, capital, group } from './words.mjs';

/* the largest file: one copy of it is held while it is open */
const LARGEST_FILE = 512 * 1024 * 1024;
const VIEWS = ['capture', 'hand', 'words'];

const desk = {};

const fromBase64 = (id) =>
    Uint8Array.from(atob(byId(id).textContent.trim()), (c) => c.charCodeAt(0));

function notice(title, text = '', kind = 'bad') {
    byId('notice').hidden = !title;
    byId('notice').className = kind;
    byId('notice').replaceChildren(make('b', {}, title), make('span', {}, text));
}

function view(name) {
    for (const each of VIEWS) {
        byId(`view-${each}`).hidden = each !== name;
        byId(`tab-${each}`).setAttribute('aria-selected', each === name);
        byId(`tab-${each}`).tabIndex = each === name ? 0 : -1;
    }
    if (name === 'capture') desk.capture.resized();
    if (name === 'hand') desk.hand.show();
}

function open(file) {
    if (!file) return;
    view('capture');
    if (file.size > LARGEST_FILE) {
        notice('This file is too large for the page.',
            `It has ${group(Math.round(file.size / 2 ** 20))} MB; the page takes up to `
            + `${LARGEST_FILE / 2 ** 20} MB. The program cinorbis reads captures of any length.`);
        return;
    }
    desk.capture.open(file);
}

/* ---- the workers */

const stopped = (why) =>
    notice('The decoder has stopped.', `${why || 'Its worker failed'}. Load the page again.`);

function worker() {
    const source = new Blob([byId('worker-source').textContent], { type: 'text/javascript' });
    const made = new Worker(URL.createObjectURL(source));
    made.onerror = (e) => stopped(e.message);
    made.onmessage = ({ data }) => received(made, data);
    return made;
}

/* what belongs to a capture that is no longer open is dropped, here for all of it */
function received(from, data) {
    const { capture, hand } = desk;
    if (data.kind === 'ready') return ready(from, data);
    if (data.kind === 'bytes') return capture.give(from, data);
    if (data.turn !== undefined && data.turn !== capture.turn) return null;
    const handlers = {
        fault: () => stopped(data.text),
        typed: () => hand.answered(data),
        telegram: () => hand.made(data),
        loaded: () => capture.loaded(data),
        unreadable: () => capture.unreadable(data),
        part: () => capture.part(data),
        swept: () => capture.swept(),
        answer: () => capture.answered(data),
        writing: () => capture.writing(data),
        text: () => capture.text(data),
    };
    try {
        return handlers[data.kind]();
    } catch (fault) {
        if (data.turn === undefined) throw fault;
        /* a browser that has no room for so many records */
        return capture.unreadable({ text: String(fault.message || fault) });
    }
}

function ready(from, { kinds }) {
    if (from !== desk.reader) return;
    const { reader, sweeper } = desk;
    const tryChanges = (answer, w) => {
        desk.hand.take(answer, w);
        view('hand');
        byId('typed').focus();
    };
    desk.capture = new Capture({ reader, sweeper, kinds, notice, tryChanges });
    desk.hand = new Hand(kinds, (message) => reader.postMessage(message),
        () => ({ ...desk.capture.options(),
            as: { ...desk.capture.state.as, [TELEGRAM_BYTE]: 1 } }));
    wire();
    document.documentElement.dataset.ready = 'yes';
    if (location.hash === '#sample') byId('sample').click();
}

/* ---- what the person does */

/* what they do is in the header, which is always in sight, or in the view of a capture */
const KEYS = { o: () => byId('chosen').click() };
const CAPTURE_KEYS = {
    g: () => {
        byId('number').focus();
        byId('number').select();
    },
    n: () => desk.capture.seek(1),
    p: () => desk.capture.seek(-1),
};

function key(e) {
    const writing = e.target.closest('textarea, select, input:not([type=radio], [type=checkbox])');
    if (writing || e.ctrlKey || e.metaKey || e.altKey) return;
    const capture = desk.capture.isOpen() && !byId('view-capture').hidden;
    const act = { ...KEYS, ...(capture ? CAPTURE_KEYS : {}) }[e.key.toLowerCase()];
    if (!act) return;
    e.preventDefault();
    act();
}

function wireTabs() {
    VIEWS.forEach((name, i) => {
        const tab = byId(`tab-${name}`);
        tab.onclick = () => view(name);
        tab.onkeydown = (e) => {
            const step = { ArrowRight: 1, ArrowLeft: -1 }[e.key];
            if (!step) return;
            const next = VIEWS[(i + step + VIEWS.length) % VIEWS.length];
            view(next);
            byId(`tab-${next}`).focus();
        };
    });
}

function wireFiles() {
    for (const id of ['open', 'open-too']) byId(id).onclick = () => byId('chosen').click();
    byId('chosen').onchange = (e) => {
        open(e.target.files[0]);
        e.target.value = '';
    };
    byId('sample').onclick = () =>
        desk.capture.open(new File([fromBase64('sample-capture')], 'sample.bin'));
    addEventListener('dragover', (e) => {
        e.preventDefault();
        document.body.classList.add('over');
    });
    addEventListener('dragleave', (e) => {
        if (!e.relatedTarget) document.body.classList.remove('over');
    });
    addEventListener('drop', (e) => {
        e.preventDefault();
        document.body.classList.remove('over');
        open(e.dataTransfer.files[0]);
    });
}

function wire() {
    wireTabs();
    wireFiles();
    addEventListener('keydown', key);
    addEventListener('resize', () => {
        desk.capture.resized();
        desk.hand.show();
    });
    for (const feature of ['prefers-color-scheme: dark', 'forced-colors: active']) {
        matchMedia(`(${feature})`).addEventListener('change', () => {
            forgetColors();
            desk.capture.redraw();
        });
    }
    for (const [name, text] of Object.values(TERMS)) {
        byId('terms').append(make('dt', {}, name), make('dd', {}, text));
    }
    for (const head of document.querySelectorAll('[data-term]')) {
        head.title = TERMS[head.dataset.term].join('. ');
    }
    for (const [number, { short, means, do: advice }] of Object.entries(REFUSALS)) {
        byId('refusals').append(make('dt', {}, capital(short), make('span', { class: 'soft' },
            ` ${number}`)), make('dd', {}, `${means} ${advice}`));
    }
}

/* A browser saves a page as it stands, with what was open in it: it starts anew from the markup
 * that it was made with. */
function anew() {
    if (!document.documentElement.dataset.ready) return;
    delete document.documentElement.dataset.ready;
    document.body.classList.remove('over');
    byId('page').innerHTML = byId('markup').textContent;
}

async function start() {
    anew();
    try {
        const module = await WebAssembly.compile(fromBase64('wasm'));
        desk.reader = worker();
        desk.sweeper = worker();
        const version = Number(document.documentElement.dataset.version);
        desk.reader.postMessage({ kind: 'module', module, version });
        desk.sweeper.postMessage({ kind: 'module', module, version });
    } catch (fault) {
        notice('This browser cannot run the decoder.',
            'It needs WebAssembly with vectors, and a policy that names it (Chrome or Edge 97, '
            + `Firefox 102, Safari 16.4, or later). ${fault.message || fault}`);
    }
}

/* for the tests, which look at the page from outside */
window.desk = desk;
start();
