// How characters of a text look, as marks in CodeMirror 5: what is bold or slanted, its colour, and how far it is above the line.

// By their numbers; the first two are those of plain text.
const COLOURS = ['', '', '#cc2222', '#228822', '#2222cc', '#aa22aa', '#aa7700', '#227777', '#555555', '#888888', '#dd6666', '#66aa66', '#6666dd',
    '#cc66cc', '#ccaa44', '#66aaaa'];
// The letters after a font's size say what it is.
const FACE = /^[a-z]+\d+(b?i?)(?:\.|$)/i;
// More would slow the editor down.
const MOST = 20_000;

// The style of looks, empty where they are plain.
function styleOf({ font, colour, offset }) {
    const face = FACE.exec(font)?.[1].toLowerCase() ?? '';
    const found = [face.includes('b') && 'font-weight: bold', face.includes('i') && 'font-style: italic',
        COLOURS[colour] && `color: ${COLOURS[colour]}`, offset !== 0 && `vertical-align: ${offset}px`];
    return found.filter(Boolean).join('; ');
}

export class Marks {
    #cm;
    #text;
    #marks = new Set();

    constructor(cm, text) {
        this.#cm = cm;
        this.#text = text;
        this.draw();
    }

    // Marks what isn't plain, and nothing else.
    draw() {
        this.#cm.operation(() => {
            this.close();
            for (const { beg, end, ...looks } of this.#text.runs()) {
                const css = styleOf(looks);
                if (css === '') continue;
                if (this.#marks.size === MOST) return;
                const [from, to] = [beg, end].map((index) => this.#cm.posFromIndex(index));
                this.#marks.add(this.#cm.markText(from, to, { className: 'vialshoal-looks', css }));
            }
        });
    }

    // Draws them anew where an edit, which the editor has made, did more than they do by themselves: they go where their characters do.
    follow(delta) {
        let at = 0;
        for (const { retain = 0, insert = '', looks } of delta) {
            const end = at + retain + insert.length;
            if (retain > 0 ? looks !== undefined : insert !== '' && this.#isOther(at, end, looks)) {
                this.draw();
                return;
            }
            at = end;
        }
    }

    // Whether characters that came look otherwise than they are marked.
    #isOther(beg, end, looks) {
        if (looks !== undefined && styleOf(looks) !== '') return true;
        const [from, to] = [beg, end].map((index) => this.#cm.posFromIndex(index));
        return this.#cm.findMarks(from, to, (mark) => this.#marks.has(mark)).length > 0;
    }

    close() {
        this.#marks.forEach((mark) => mark.clear());
        this.#marks.clear();
    }
}
