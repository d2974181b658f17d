// A text that is kept in a file: what the file has, and what the text has beyond that.
import { BEHIND, FrontsDiffer } from './errors.js';

function isSame(one, other) {
    return one.size === other.size && [...one].every(([site, front]) => other.get(site) === front);
}

export class Keeper {
    #text;
    #journal;
    #calls;
    // Up to where the file has the text, and whether that may be further.
    #kept;
    #isUnkept = false;
    // How many operations the site had made before the call that runs; the first that was made elsewhere: nothing is kept from then on.
    #made = 0;
    #elsewhere = 0;

    // `packed(fronts)` answers what the text has beyond these, and `history()` all of it.
    constructor(text, journal, calls) {
        this.#text = text;
        this.#journal = journal;
        this.#calls = calls;
        this.#kept = text.fronts();
    }

    get torn() {
        return this.#journal.torn;
    }

    refuseWhereElsewhere() {
        if (this.#elsewhere > 0) throw new FrontsDiffer(BEHIND, this.#text.site, this.#elsewhere);
    }

    // A call begins that changes the text.
    begins() {
        this.refuseWhereElsewhere();
        this.#isUnkept = true;
        this.#made = this.#text.front(this.#text.site);
    }

    // What others made was taken in: they make nothing in this site's name.
    took(isInBatch) {
        if (this.#text.front(this.#text.site) > this.#made) this.#elsewhere = this.#made + 1;
        this.refuseWhereElsewhere();
        if (!isInBatch) this.keep();
    }

    // Has the file have all that the text holds.
    keep() {
        if (!this.#isUnkept || this.#elsewhere > 0) return;
        const fronts = this.#text.fronts();
        if (!isSame(fronts, this.#kept)) this.#journal.append(this.#calls.packed(this.#kept));
        [this.#kept, this.#isUnkept] = [fronts, false];
        if (this.#journal.hasGrown) this.#journal.rewrite(this.#calls.history());
    }

    // Whether the file has all by now. (The call that runs says why it hasn't.)
    get isKept() {
        try {
            this.keep();
        } catch (why) {
            if (why.code === undefined) throw why;
        }
        return !this.#isUnkept;
    }

    close() {
        this.#journal.close();
    }
}
