/* Elements, made and found. All text goes in as text, never as markup. */

const SVG = new Set(['svg', 'g', 'rect', 'line', 'text', 'title', 'defs', 'pattern', 'path']);

export function make(name, attributes = {}, ...children) {
    const element = SVG.has(name)
        ? document.createElementNS('http://www.w3.org/2000/svg', name)
        : document.createElement(name);
    for (const [key, value] of Object.entries(attributes)) element.setAttribute(key, value);
    element.append(...children.filter((child) => child !== null && child !== undefined));
    return element;
}

export const byId = (id) => document.getElementById(id);

/* a file for the person to keep */
export function save(blob, name) {
    const link = make('a', { href: URL.createObjectURL(blob), download: name });
    link.click();
    setTimeout(() => URL.revokeObjectURL(link.href), 60000);
}

/* ---- canvas */

const colors = new Map();
let themes = 0;
const layers = new WeakMap();

/* a color of the style sheet by its name */
export function color(name) {
    if (!colors.has(name)) {
        const style = getComputedStyle(document.documentElement);
        colors.set(name, style.getPropertyValue(name).trim());
    }
    return colors.get(name);
}

/* light and dark have other colors under the same names */
export function forgetColors() {
    colors.clear();
    themes++;
}

/* a clean canvas at the screen's own resolution */
function fitted(canvas) {
    const ratio = window.devicePixelRatio || 1;
    const wide = canvas.clientWidth;
    const tall = canvas.clientHeight;
    canvas.width = Math.round(wide * ratio);
    canvas.height = Math.round(tall * ratio);
    const pen = canvas.getContext('2d');
    pen.setTransform(ratio, 0, 0, ratio, 0, 0);
    return { pen, wide, tall };
}

/* A canvas in two layers. `below` draws what goes through many records, and only where `key` or the
 * window has changed; what it gives is kept with it. What changes often is drawn on top of it. */
export function layered(canvas, key, below) {
    const { pen, wide, tall } = fitted(canvas);
    const whole = [key, canvas.width, canvas.height, themes].join();
    const kept = layers.get(canvas);
    if (kept && kept.whole === whole) {
        pen.drawImage(kept.copy, 0, 0, wide, tall);
        return { pen, wide, tall, found: kept.found };
    }
    const found = below(pen, wide, tall);
    const copy = make('canvas', { width: canvas.width, height: canvas.height });
    copy.getContext('2d').drawImage(canvas, 0, 0);
    layers.set(canvas, { whole, copy, found });
    return { pen, wide, tall, found };
}
