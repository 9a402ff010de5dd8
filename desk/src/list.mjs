/* A list of any length of which only the rows in sight exist. Which row is at the top is kept here
 * and not in the scroll bar, since browsers limit how tall an element may be: the bar is set from
 * it, and it from the bar. */
import { answerWidth, layout, template } from './columns.mjs';
import { make } from './dom.mjs';

/* the height of a row, and of one in two lines: as in the style sheet */
const ROW = 26;
const TALL_ROW = 46;
const TALLEST = 4000000;
const COLUMNS = ['number', 'code', 'answer', 'sure', 'penalty', 'gap'];

const STEPS = {
    ArrowDown: () => 1,
    ArrowUp: () => -1,
    PageDown: (page) => page,
    PageUp: (page) => -page,
    Home: () => -Infinity,
    End: () => Infinity,
};

export class List {
    /* fill(cells, row, i) writes row i; chose(i) hears a choice; drawn() follows a drawing;
     * needed() gives the widths that the columns need */
    constructor(element, spacer, rows, { fill, chose, drawn, needed }) {
        Object.assign(this, { element, spacer, rows, fill, chose, drawn, needed });
        Object.assign(this, { count: 0, top: 0, chosen: -1, barAt: 0, row: ROW, bits: 0 });
        element.addEventListener('scroll', () => this.scrolled());
        element.addEventListener('wheel', (e) => this.wheel(e), { passive: false });
        element.addEventListener('keydown', (e) => this.key(e));
        rows.addEventListener('click', (e) => {
            const row = e.target.closest('.row');
            if (row && row.at >= 0) this.choose(row.at);
        });
        new ResizeObserver(() => this.resize()).observe(element);
    }

    /* how many rows fit, with a fraction */
    fits() {
        return this.element.clientHeight / this.row;
    }

    lastTop() {
        return Math.max(0, this.count - this.fits());
    }

    scrolled() {
        /* where the list itself has put the bar there is nothing to follow */
        if (Math.abs(this.element.scrollTop - this.barAt) < 1) return;
        const range = this.element.scrollHeight - this.element.clientHeight;
        this.barAt = this.element.scrollTop;
        this.top = range > 0 ? (this.barAt / range) * this.lastTop() : 0;
        this.draw();
    }

    wheel(e) {
        if (e.ctrlKey || e.deltaY === 0) return;
        const rows = [e.deltaY / this.row, e.deltaY, e.deltaY * this.fits()][e.deltaMode];
        const before = this.top;
        this.scrollTo(this.top + rows);
        /* at either end the page scrolls on, as it does everywhere else */
        if (this.top !== before) e.preventDefault();
    }

    key(e) {
        if (e.altKey || e.ctrlKey || e.metaKey || !STEPS[e.key] || this.count === 0) return;
        e.preventDefault();
        const page = Math.max(1, Math.floor(this.fits()) - 1);
        const wanted = this.chosen + STEPS[e.key](page);
        this.choose(Math.max(0, Math.min(this.count - 1, wanted)));
    }

    /* the columns, for head and rows: both lie in the element's parent */
    arrange() {
        const box = this.element.parentNode;
        const bar = this.element.offsetWidth - this.element.clientWidth;
        const style = getComputedStyle(box.querySelector('.row'));
        const right = parseFloat(style.getPropertyValue('--edge'));
        const padding = parseFloat(style.paddingLeft) + right;
        const need = this.needed();
        const wide = this.element.clientWidth - padding;
        const found = layout(need, wide);
        this.bits = Math.floor(answerWidth(found, wide) / need.bit);
        box.style.setProperty('--bar', `${bar}px`);
        box.style.setProperty('--columns', template(found));
        box.classList.toggle('tall', found.tall);
        for (const name of ['code', 'penalty']) {
            box.classList.toggle(`no-${name}`, !found.shown.includes(name));
        }
        box.classList.toggle('no-meter', !found.meter);
        this.row = found.tall ? TALL_ROW : ROW;
    }

    /* as many bits as fit, with a sign that there are more */
    cut(bits) {
        return bits.length > this.bits ? `${bits.slice(0, this.bits - 1)}…` : bits;
    }

    resize() {
        if (this.element.clientWidth === 0) return;
        this.arrange();
        this.spacer.style.height = `${Math.min(TALLEST, this.count * this.row)}px`;
        const wanted = Math.ceil(this.fits()) + 1;
        while (this.rows.children.length < wanted) {
            const cells = COLUMNS.map((name) => make('span', { class: name }));
            this.rows.append(make('div', { class: 'row', role: 'option' }, ...cells));
        }
        while (this.rows.children.length > wanted) this.rows.lastChild.remove();
        this.scrollTo(this.top);
    }

    setCount(count, top = this.top) {
        this.count = count;
        this.top = top;
        this.resize();
    }

    scrollTo(top) {
        this.top = Math.max(0, Math.min(this.lastTop(), top));
        const range = this.element.scrollHeight - this.element.clientHeight;
        this.element.scrollTop = this.lastTop() > 0 ? (this.top / this.lastTop()) * range : 0;
        this.barAt = this.element.scrollTop;
        this.draw();
    }

    /* marks row i and brings it into sight */
    mark(i) {
        this.chosen = i;
        if (i < this.top) this.scrollTo(i);
        else if (i > this.top + this.fits() - 1) this.scrollTo(i - this.fits() + 1);
        else this.draw();
    }

    choose(i) {
        this.mark(i);
        this.chose(i);
    }

    draw() {
        const first = Math.floor(this.top);
        const shift = this.element.scrollTop - (this.top - first) * this.row;
        this.rows.style.transform = `translateY(${shift}px)`;
        this.element.removeAttribute('aria-activedescendant');
        Array.from(this.rows.children).forEach((row, place) => this.drawRow(row, place, first));
        this.drawn();
    }

    drawRow(row, place, first) {
        const at = first + place;
        const there = at < this.count;
        row.at = there ? at : -1;
        row.id = `row-${place}`;
        row.hidden = !there;
        if (!there) return;
        row.setAttribute('aria-selected', at === this.chosen);
        row.setAttribute('aria-setsize', this.count);
        row.setAttribute('aria-posinset', at + 1);
        if (at === this.chosen) this.element.setAttribute('aria-activedescendant', row.id);
        this.fill(row.children, row, at);
    }

    /* the numbers of the rows in sight */
    inSight() {
        const first = Math.floor(this.top);
        const end = Math.min(this.count, first + Math.ceil(this.fits()) + 1);
        return Array.from({ length: Math.max(0, end - first) }, (_, i) => first + i);
    }
}
