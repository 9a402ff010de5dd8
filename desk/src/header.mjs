/* The numbers of include/cinorbis.h, written by tools/figures --write. */
export const VERSION = 17;
export const LARGEST_M = 8;
export const LARGEST_READING = 32767;
export const LARGEST_RECORD_READING = 2047;
export const DEFAULT_ALLOWANCE = 200000;
export const LARGEST_N = 256;
export const LARGEST_RECORD = 385;
export const REFUSAL = {
    DONE: 0,
    PARAMETERS: 1,
    INPUT_LENGTH: 2,
    OUTPUT_LENGTH: 3,
    ENTRY: 4,
    NOT_A_WORD: 5,
    OUT_OF_VISITS: 6,
    TIED: 7,
    TORN: 8,
    PAD: 9,
    NO_ENTRY: 10,
    MAP: 11,
    NAMED: 12,
    MARKER: 13,
    TILT: 14,
    ZERO_TILT: 15,
    FIELD: 16,
};
/* the place of each field in its struct, and the struct's size, in bytes */
export const STRUCT = {
    numbers: { penalty: 0, gap: 8, visits: 16, place: 24, size: 32 },
    part: { r: 0, m: 8, length: 16, place: 24, size: 32 },
    written: { next: 0, place: 8, size: 16 },
    index: { records: 0, used: 8, size: 16 },
    front: { records: 0, used: 8, ended: 16, size: 24 },
    entry: { r: 0, m: 8, start: 16, length: 24, place: 32, size: 40 },
    telegram: { cylinder: 0, direction: 8, tilt: 16, size: 24 },
};
