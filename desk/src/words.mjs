/* Every sentence about answers that a person reads, in one place, and how numbers are written. */
import { REFUSAL } from './header.mjs';
import { ALLOWANCE } from './library.mjs';

/* of each refusal that a record or a telegram can meet: a name for the list, what it means, and
 * what to do about it */
export const REFUSALS = {
    [REFUSAL.PARAMETERS]: {
        short: 'not a record',
        means: 'The first byte names no code, so nobody can tell where the next record begins.',
        do: 'The file is damaged here, or it is not a capture.',
    },
    [REFUSAL.OUT_OF_VISITS]: {
        short: 'gave up',
        means: `The search was stopped after ${group(ALLOWANCE)} visits without a certain answer.`,
        do: 'A dead or very noisy link does this. Look at the sensor, its cable and its supply.',
    },
    [REFUSAL.TIED]: {
        short: 'tied',
        means: 'Two words fit these readings equally well, so neither is given.',
        do: 'One such record is bad luck; many point to a weak signal.',
    },
    [REFUSAL.TORN]: {
        short: 'torn off',
        means: 'The file ends before the record does.',
        do: 'The download was cut short, or the box lost power. Fetch the capture again.',
    },
    [REFUSAL.PAD]: {
        short: 'damaged',
        means: 'One of the four filler bits at its end is 1. They are 0 in every good record.',
        do: 'The file was changed after the box wrote it, or the box is faulty.',
    },
    [REFUSAL.MARKER]: {
        short: 'turned over',
        means: 'The marker is set, as it is when plus and minus of the link are swapped.',
        do: 'Check the polarity of the link.',
    },
    [REFUSAL.TILT]: {
        short: 'no telegram',
        means: 'The tilt would be above 15.00°, which no telegram carries.',
        do: 'These records are not telegrams, or the link is very noisy.',
    },
    [REFUSAL.ZERO_TILT]: {
        short: 'no telegram',
        means: 'It names a direction but no tilt, which no telegram does.',
        do: 'These records are not telegrams, or the link is very noisy.',
    },
};

export const TERMS = {
    reading: ['Reading', 'One signed number for each bit, from the modem. Plus speaks for 0, minus '
        + 'for 1, and the size says how sure the modem is. 0 says nothing.'],
    word: ['Word', 'The pattern of bits that fits all readings of the record best, of all patterns '
        + 'that the code allows.'],
    bits: ['Information bits', 'What was sent. The other bits of the word are there to protect '
        + 'these.'],
    penalty: ['Penalty', 'How much had to be overruled: the sizes of all readings that disagree '
        + 'with the word found, added up. 0 means that no reading disagrees.'],
    gap: ['Gap', 'How safe the word is: how much all readings together would have to change before '
        + 'another word fits as well. The larger, the better.'],
    runner: ['Runner-up', 'What it nearly was: a word that fits second best. Its penalty is the '
        + 'penalty of the word found plus the gap.'],
    visits: ['Visits', 'How many steps the search took. A noisy record takes more.'],
    sure: ['Sure', 'The gap in proportion to how loud the record is. 100 % is what a clean record '
        + 'has, 0 % would be a tie. It is not a probability. This page works it out to sort '
        + 'records by; the library gives the gap alone.'],
    doubtful: ['Doubtful', 'A record that is less sure than the limit in the box above the list. '
        + 'The limit is yours to choose; 20 % is only where this page starts.'],
    marker: ['Marker', 'A bit that is 0 in every message. When plus and minus of the link are '
        + 'swapped it reads 1, so that a tilt is never shown to the wrong side.'],
    telegram: ['Telegram', 'A record of RM(2,5) whose 16 bits say a cylinder, a tilt and a '
        + 'direction. Nothing in a capture tells telegrams from plain words of RM(2,5): this page '
        + 'guesses, and you can switch. Without any signal more than a third of the words still '
        + 'show a telegram: look at the gap, and whether that cylinder was asked.'],
    rod: ['Rod position', 'A record of RM(1,m) whose bits say a number from 0 to 2 to the power of '
        + 'm, less 1. With plus and minus swapped it is refused by its marker, as a telegram is. A '
        + 'rod position is also the word of a telegram of its length: one link carries both only '
        + 'with different lengths.'],
    code: ['Code', 'RM(r,m), a Reed-Muller code: 2 to the power of m bits a word, of which r '
        + 'decides how many carry information. The smaller r, the more damage is repaired.'],
};

export function group(x) {
    return String(x).replace(/\B(?=(\d{3})+(?!\d))/g, ',');
}

/* a number that is typed, plain or in groups of three digits; NaN for all else, such as 1.5 */
export function numberOf(text) {
    const digits = text.trim();
    const plain = /^\d{1,15}$/.test(digits);
    const grouped = /^\d{1,3}([ ,.'’_\u00a0\u202f])\d{3}(\1\d{3}){0,3}$/.test(digits);
    return plain || grouped ? Number(digits.replace(/\D/g, '')) : NaN;
}

export const plural = (x, one) => `${group(x)} ${one}${x === 1 ? '' : 's'}`;

export const hex = (byte) => byte.toString(16).toUpperCase().padStart(2, '0');

/* thousandths as a percentage, rounded down; below 10 % with one decimal */
export function percent(thousandths) {
    if (thousandths >= 100) return `${Math.floor(thousandths / 10)} %`;
    return `${(thousandths / 10).toFixed(1)} %`;
}

/* hundredths of a degree */
export function degrees(tilt) {
    return `${Math.floor(tilt / 100)}.${String(tilt % 100).padStart(2, '0')}`;
}

export const side = (direction) => (direction ? 'port' : 'starboard');

/* what a message says, in words; or why it is none */
export function messageText({ carried, refusal, cylinder, direction, tilt, position }) {
    if (refusal) return REFUSALS[refusal].short;
    if (carried === 'rod') return `rod position ${position}`;
    const where = tilt ? `${degrees(tilt)}° to ${side(direction)}` : 'level';
    return `cylinder ${cylinder}, ${where}`;
}

/* what a record carries, by name; and what is said of one that carries nothing */
export const CARRIED = {
    telegram: { one: 'telegram', many: 'telegrams', none: 'no telegram' },
    rod: { one: 'rod position', many: 'rod positions', none: 'no position' },
};

/* the same for a row of the list, whose head says what it is */
export function messageShort({ carried, refusal, cylinder, direction, tilt, position }) {
    if (refusal) return REFUSALS[refusal].short;
    if (carried === 'rod') return `rod ${position}`;
    return `${cylinder}: ${tilt ? `${degrees(tilt)}° ${side(direction)}` : 'level'}`;
}

export const capital = (text) => text[0].toUpperCase() + text.slice(1);

export const bitText = (bits) => Array.from(bits).join('');

/* the line that the program writes for a record, and its last line (docs/RULES.md, §8) */
export function programLine(w, { refusal, bits, penalty, gap, visits }) {
    if (refusal) return `${w} refused ${refusal}\n`;
    return `${w} info ${bitText(bits)} penalty ${penalty} margin ${gap} visits ${visits}\n`;
}

export const programTotal = (read, refused) => `${read} read, ${refused} refused\n`;
