/* make.mjs MODULE.wasm FOLDER [large]: captures to try the page with, the same in every run; with a
 * third word also those of a million records. sample.bin is the one in desk/. */
import { mkdirSync, readFileSync, writeFileSync } from 'fs';
import { VERSION } from '../../desk/src/header.mjs';
import { Library } from '../../desk/src/library.mjs';

const [module, folder, large] = process.argv.slice(2);
const library = new Library(new WebAssembly.Module(readFileSync(module)), VERSION);
mkdirSync(folder, { recursive: true });

let seed = 12345;
const random = () => {
    seed = (Math.imul(seed, 1664525) + 1013904223) >>> 0;
    return seed / 2 ** 32;
};
const normal = () => Math.sqrt(-2 * Math.log(1 - random())) * Math.cos(2 * Math.PI * random());
const clipped = (x) => Math.max(-2047, Math.min(2047, Math.round(x)));
const noisy = (word, size, noise) =>
    Array.from(word, (bit) => clipped((bit ? -size : size) + size * noise * normal()));
/* each capture from the same seed, whatever comes before it */
const save = (name, parts) => {
    seed = 12345;
    writeFileSync(`${folder}/${name}`, Buffer.concat(parts()));
};

/* telegrams of a boat that rolls: three cylinders in turn, a stretch of noise, and one where the
 * link is turned over */
function telegrams(count) {
    return Array.from({ length: count }, (_, i) => {
        const cylinder = i % 3;
        const t = i / count;
        const roll = 420 * Math.sin(18 * t + cylinder * 0.35) * (0.5 + t);
        const angle = roll + 180 * Math.sin(71 * t) + cylinder * 90;
        const tilt = Math.min(1500, Math.round(Math.abs(angle)));
        const { word } = library.writeTelegram(cylinder, tilt && angle < 0 ? 1 : 0, tilt);
        const noise = t > 0.42 && t < 0.47 ? 1.15 : t > 0.8 && t < 0.82 ? 0.8 : 0.35;
        const sign = t > 0.6 && t < 0.63 ? -1 : 1;
        return library.writeRecord(2, 5, noisy(word, 400, noise).map((x) => sign * x));
    });
}

/* a rod that goes up and down, in words of RM(1,4), and the tilt between its words: both kinds on
 * one link, lengths apart; a stretch where the link is turned over */
function rods(count) {
    return Array.from({ length: count }, (_, i) => {
        const t = i / count;
        const sign = t > 0.7 && t < 0.74 ? -1 : 1;
        const noise = t > 0.3 && t < 0.34 ? 1.3 : 0.4;
        if (i % 3 === 2) {
            const angle = Math.round(500 * Math.sin(20 * t));
            const { word } = library.writeTelegram(1, angle < 0 ? 1 : 0, Math.abs(angle));
            return library.writeRecord(2, 5, noisy(word, 400, noise).map((x) => sign * x));
        }
        const position = Math.round(7.5 + 7.4 * Math.sin(9 * t));
        const { word } = library.writeRod(4, position);
        return library.writeRecord(1, 4, noisy(word, 400, noise).map((x) => sign * x));
    });
}

const codes = library.kinds.filter(({ length }) => length > 0);

function plain({ r, m, k }, size, noise) {
    const bits = Uint8Array.from({ length: k }, () => (random() < 0.5 ? 0 : 1));
    return library.writeRecord(r, m, noisy(library.encode(r, m, bits), size, noise));
}

/* all codes with little and much noise, ties among them; large codes with less, so that no walk
 * takes long */
function mixed(count) {
    return Array.from({ length: count }, (_, i) => {
        const code = codes[i % codes.length];
        const { r, m } = code;
        const noise = [0, 0.2, 0.4, 0.6, 1, 3][Math.floor(random() * 6)];
        const calm = m > 6 && r > 1 && r < m - 1 ? 0.5 : 1;
        return plain(code, [1, 3, 50, 600, 2047][Math.floor(random() * 5)], noise * calm);
    });
}

save('telegrams.bin', () => telegrams(6000));
save('torn.bin', () => [...telegrams(50), telegrams(1)[0].subarray(0, 30)]);
save('stray.bin', () => [...telegrams(20), Buffer.from([0x9f, 1, 2, 3])]);
save('mixed.bin', () => mixed(2700));
/* plain words of RM(2,5), which are not to be taken for telegrams */
save('plain.bin', () => Array.from({ length: 400 }, () => plain(library.kinds[0x52], 400, 0.3)));
/* words whose walk takes long, for a page that is to stay usable: noise alone, RM(4,8) */
save('noise.bin', () => Array.from({ length: 40 }, () => plain(library.kinds[0x84], 1, 300)));
save('text.bin', () => [Buffer.from('{"cylinder": 5, "tilt": 12.34}\n')]);
save('begun.bin', () => [telegrams(1)[0].subarray(0, 20)]);
save('empty.bin', () => []);
save('rods.bin', () => rods(1500));
/* rod positions and telegrams of one length, which one link cannot carry both */
save('rivals.bin', () => [...telegrams(40), ...Array.from({ length: 40 }, (_, i) =>
    library.writeRecord(1, 5, noisy(library.writeRod(5, i % 32).word, 400, 0.2)))]);
save('sample.bin', () => telegrams(300));
if (large) {
    const small = (i) => plain(library.kinds[i % 2 ? 0x31 : 0x21], 100, 0.4);
    save('million.bin', () => Array.from({ length: 1000000 }, (_, i) => small(i)));
    save('million-telegrams.bin', () => telegrams(1000000));
}
