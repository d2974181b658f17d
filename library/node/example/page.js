// Two sites in a page, each with its own copy of a text. A worker stands for the server that they share: what a site and the worker
// send each other is what the other lacks, and how far it goes itself.
import { Text } from '../../out/node/browser.mjs';

const worker = new Worker(new URL('worker.js', import.meta.url), { type: 'module' });

const isHigh = (unit) => unit >= '\ud800' && unit < '\udc00';

// What was typed: all between the longest equal begin and the longest equal end, and no half of a pair of surrogates.
function edited(was, is) {
    const most = Math.min(was.length, is.length);
    let beg = 0, same = 0;
    while (beg < most && was[beg] === is[beg]) beg += 1;
    if (beg > 0 && isHigh(is[beg - 1])) beg -= 1;
    while (same < most - beg && was.at(-1 - same) === is.at(-1 - same)) same += 1;
    if (same > 0 && isHigh(was[was.length - same - 1])) same -= 1;
    return { beg, end: was.length - same, typed: is.slice(beg, is.length - same) };
}

// Where a place of the text is after these changes.
function moved(place, changes) {
    for (const { kind, beg, end } of changes) {
        if (kind === 'insert' && beg < place) place += end - beg;
        if (kind === 'delete' && beg < place) place -= Math.min(place, end) - beg;
    }
    return place;
}

class Site {
    constructor(number, section) {
        this.number = number;
        this.text = new Text(1, number, { units: 'utf-16' });
        this.box = section.querySelector('textarea');
        this.isOnLine = section.querySelector('input');
        // How far the worker's copy goes, as it said last.
        this.worker = new Map();
        this.box.addEventListener('input', () => this.edit());
        this.isOnLine.addEventListener('change', () => this.send());
        this.send();
    }

    edit() {
        const { beg, end, typed } = edited(this.text.toString(), this.box.value);
        if (beg < end) this.text.delete(beg, end);
        if (typed !== '') this.text.insert(beg, typed);
        this.text.changes();
        this.send();
    }

    send() {
        if (!this.isOnLine.checked) return;
        worker.postMessage({ site: this.number, fronts: this.text.fronts(), chunks: this.text.pack(this.worker) });
    }

    take({ fronts, chunks }) {
        if (!this.isOnLine.checked) return;
        this.worker = fronts;
        for (const chunk of chunks) this.text.unpack(chunk);
        if (chunks.length > 0) this.send();
        const changes = this.text.changes();
        const [beg, end] = [this.box.selectionStart, this.box.selectionEnd].map((place) => moved(place, changes));
        this.box.value = this.text.toString();
        this.box.setSelectionRange(beg, end);
        this.box.disabled = false;
    }
}

const sites = new Map();

function begin() {
    worker.addEventListener('message', ({ data: { site, kept, ...sent } }) => {
        sites.get(site).take(sent);
        document.getElementById('kept').textContent = `The worker has ${kept} bytes of history.`;
    });
    document.querySelectorAll('section').forEach((section, index) => sites.set(index + 1, new Site(index + 1, section)));
}

worker.addEventListener('message', begin, { once: true });
