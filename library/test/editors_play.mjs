// Plays at random in the two editors of library/node/example/editors.html, against plain models: a string where an editor is typed in, sets of
// characters where something is taken back, and one text that takes in both where they meet. Where all is as it should be it answers
// how much was done.
import { Text } from '/node/browser.mjs';

const PIECES = ['a', 'bc', '\n', 'x\ny', '\u00e9', '\u20ac', '\ud83d\ude00', '\ud83d\ude01', 'word ', '\t'];
// The halves of a pair; some pairs have one in common.
const HALF = /[\ud800-\udbff](?![\udc00-\udfff])|(?<![\ud800-\udbff])[\udc00-\udfff]/g;
const LOOKS = [{ font: 'Oberon10b.Scn.Fnt' }, { font: 'Syntax12i.Scn.Fnt' }, { font: 'Oberon10.Scn.Fnt', colour: 1, offset: 0 }, { colour: 2 },
    { colour: 15 }, { offset: -3 }];
const PATIENCE = 300_000;
const WAIT = 5;

const sleep = (time) => new Promise((done) => { setTimeout(done, time); });

function drawn(seed) {
    let state = seed;
    return (bound) => {
        state ^= state << 13;
        state ^= state >>> 17;
        state ^= state << 5;
        return (state >>> 0) % bound;
    };
}

function same(one, other, what) {
    if (JSON.stringify(one) !== JSON.stringify(other)) throw new Error(`${what}: ${JSON.stringify(one)}, and not ${JSON.stringify(other)}`);
}

async function until(condition, what) {
    for (const end = Date.now() + PATIENCE; !condition(); await sleep(WAIT)) if (Date.now() > end) throw new Error(`waited for ${what()}`);
}

// The characters that a text shows, as names of their bytes.
function namesOf(text) {
    return new Set(text.nameRanges(0, text.length).flatMap(({ site, offset, length }) =>
        Array.from({ length }, (_, at) => `${site}.${offset + at}`)));
}

// How each unit of an editor is marked, and how it is to be by its looks.
function marked(cm) {
    const styles = Array(cm.getValue().length).fill('');
    for (const mark of cm.getAllMarks().filter(({ className }) => className === 'vialshoal-looks')) {
        const { from, to } = mark.find(), [beg, end] = [from, to].map((place) => cm.indexFromPos(place));
        if (styles.slice(beg, end).some((style) => style !== '')) throw new Error(`${beg} to ${end} is marked twice`);
        styles.fill(mark.css, beg, end);
    }
    return styles;
}

function dressed(text) {
    return text.runs().flatMap(({ beg, end, font, colour, offset }) => Array(end - beg).fill([
        { 'Oberon10b.Scn.Fnt': 'font-weight: bold', 'Syntax12i.Scn.Fnt': 'font-style: italic' }[font],
        { 2: 'color: #cc2222', 15: 'color: #66aaaa' }[colour], { '-3': 'vertical-align: -3px' }[offset],
    ].filter(Boolean).join('; ')));
}

const without = (set, other) => [...set].filter((one) => !other.has(one));
const sorted = (set) => [...set].sort();

class Player {
    constructor(draw, editors) {
        this.draw = draw;
        this.editors = editors;
        this.stacks = editors.map(() => ({ done: [], undone: [] }));
        this.counts = { edits: 0, undos: 0, looks: 0, meetings: 0, away: 0 };
        // (lines out of view, and the cursors in them, wouldn't be drawn)
        editors.forEach(({ cm }) => cm.setOption('viewportMargin', Infinity));
    }

    // A range of an editor, and what is put in its place; now and then a half of a pair alone.
    splice(shown) {
        const [one, other] = [this.draw(shown.length + 1), this.draw(shown.length + 1)], beg = Math.min(one, other);
        const end = this.draw(3) === 0 ? Math.min(Math.max(one, other), beg + 12) : beg;
        const put = this.draw(4) === 0 && end > beg ? '' : PIECES[this.draw(PIECES.length)];
        return { beg, end, put };
    }

    // A command of one change or some, as keys make them.
    edit(index) {
        const { cm, text } = this.editors[index], before = namesOf(text), front = text.front(text.site);
        let shown = cm.getValue();
        cm.operation(() => {
            for (let times = this.draw(4) === 0 ? 3 : 1; times > 0; times -= 1) {
                const { beg, end, put } = this.splice(shown);
                cm.replaceRange(put, cm.posFromIndex(beg), cm.posFromIndex(end), '+input');
                shown = shown.slice(0, beg) + put + shown.slice(end);
            }
        });
        same(cm.getValue(), shown.replace(HALF, '\ufffd'), 'typed');
        const after = namesOf(text), [came, went] = [without(after, before), without(before, after)], { done, undone } = this.stacks[index];
        if (came.length + went.length > 0) done.push({ came, went });
        // (what was put in and cut out is nothing to take back)
        if (text.front(text.site) > front && came.length + went.length > 0) undone.length = 0;
        this.counts.edits += 1;
    }

    undo(index) {
        const { cm, text } = this.editors[index], { done, undone } = this.stacks[index], isUndo = this.draw(2) === 0;
        const [from, to] = isUndo ? [done, undone] : [undone, done], before = namesOf(text);
        let wanted = before;
        while (from.length > 0) {
            const { came, went } = from.pop();
            const set = new Set(before);
            came.forEach((name) => set.delete(name));
            went.forEach((name) => set.add(name));
            const changed = { came: without(set, before), went: without(before, set) };
            if (changed.came.length + changed.went.length === 0) continue;
            to.push(changed);
            wanted = set;
            break;
        }
        cm.execCommand(isUndo ? 'undo' : 'redo');
        same(sorted(namesOf(text)), sorted(wanted), isUndo ? 'undone' : 'done again');
        this.counts.undos += 1;
    }

    dress(index) {
        const { cm, text } = this.editors[index], { beg, end } = this.splice(cm.getValue());
        try {
            text.changeLooks(beg, end, LOOKS[this.draw(LOOKS.length)]);
        } catch (why) {
            // (within a pair)
            if (why.code !== 'OUT_OF_TEXT') throw why;
        }
        this.counts.looks += 1;
    }

    select(index) {
        const { cm } = this.editors[index], shown = cm.getValue();
        cm.setSelection(...[0, 0].map(() => {
            const at = this.draw(shown.length + 1);
            // (nobody's cursor is within a pair)
            return cm.posFromIndex(/[\udc00-\udfff]/.test(shown[at] ?? '') ? at - 1 : at);
        }));
    }

    // Both are what one is that takes in both, and show each other's cursors.
    async meet() {
        const texts = this.editors.map(({ text }) => text), both = new Text(1, 9, { units: 'utf-16' });
        texts.forEach((text) => both.merge(text));
        this.editors.forEach(({ provider }) => provider.connect());
        await until(() => texts.every((text) => `${[...text.fronts()]}` === `${[...both.fronts()]}`), () => 'all to have all');
        this.editors.forEach(({ cm, text }) => {
            same(`${text}`, `${both}`, 'met');
            same(cm.getValue(), `${both}`, 'shown');
            same(marked(cm), dressed(both), 'looks');
        });
        await until(() => this.misplaced() === undefined, () => this.misplaced());
        both.close();
        this.counts.meetings += 1;
    }

    // Whose cursor the other one shows elsewhere.
    misplaced() {
        const [one, other] = this.editors;
        for (const [whose, by] of [[one, other], [other, one]]) {
            const shown = by.binding.cursors.get(whose.presence.id), [range] = whose.cm.listSelections();
            const [anchor, head] = [range.anchor, range.head].map((place) => whose.cm.indexFromPos(place));
            const drawn = by.cm.getWrapperElement().querySelectorAll('.vialshoal-caret').length;
            if (shown?.anchor !== anchor || shown.head !== head || drawn !== 1) {
                return `${whose.text.site} is at ${anchor} and ${head}, and shown at ${shown?.anchor} and ${shown?.head}, ${drawn} times`;
            }
        }
        return undefined;
    }

    async step() {
        const index = this.draw(2), { provider, cm, text } = this.editors[index], what = this.draw(22);
        if (what < 10) this.edit(index);
        else if (what < 14) this.undo(index);
        else if (what < 16) this.select(index);
        else if (what === 16) await this.meet();
        else if (what === 17) provider.connect();
        else if (what === 18) await sleep(this.draw(10));
        else if (what > 19) this.dress(index);
        else {
            provider.disconnect();
            this.counts.away += 1;
        }
        same(cm.getValue(), `${text}`, 'shown');
        same(marked(cm), dressed(text), 'looks');
    }
}

export async function play(seed, seconds) {
    const player = new Player(drawn(seed), globalThis.editors), end = Date.now() + 1000 * seconds;
    let steps = 0;
    try {
        for (; Date.now() < end; steps += 1) await player.step();
        await player.meet();
    } catch (why) {
        return { seed, steps, ...player.counts, wrong: `${why.stack}` };
    }
    return { seed, steps, ...player.counts, wrong: '' };
}
