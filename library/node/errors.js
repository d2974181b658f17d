// How texts refuse, and how calls are misused, in words.

// By the number that the library answers: a code, and what it means. Those from 101 on are misuse.
const REASONS = {
    1: ['MALFORMED', 'the bytes are no message, or no chunk'],
    2: ['WRONG_TEXT', 'the message, or the chunk, is of another text'],
    3: ['CONFLICT', 'another operation has this identity: two copies edited as one site'],
    4: ['BAD_OFFSET', 'the message does not fit the others of its site'],
    5: ['BAD_STAMP', 'the stamp is not above that of each cause'],
    6: ['ROOM_FULL', '64 messages wait already'],
    7: ['OUT_OF_MEMORY', 'memory was refused'],
    8: ['BEHIND', 'what waits shows that the site was further once'],
    9: ['STAMPS_SPENT', 'the greatest stamp was taken in'],
    10: ['FILE_SPENT', 'the site would have put in more than 2^24 bytes'],
    12: ['SCATTERED', 'a set of names needs more than 1,024 ranges'],
    13: ['BAD_FILE', 'the bytes are no file of a site; or a text file would pass 2^20 bytes, a packed one 2^22 operations'],
    23: ['SEQ_SPENT', 'the site has made its last operation in the text'],
    101: ['NOT_OPEN', 'the text is closed', TypeError],
    103: ['OUT_OF_TEXT', 'a position lies outside the text, or a range ends before its begin', RangeError],
    104: ['TOO_LONG', 'more than 2^24 bytes are to be put in', RangeError],
    105: ['NO_NUMBER', 'a number is that of no text, site, name or colour, or a font is none', RangeError],
    106: ['NO_NAME', 'the name is that of no character that was taken in', RangeError],
    109: ['STILL_NOTED', 'changes are noted, and told as such', TypeError],
};
const MISUSE = 101;
export const MALFORMED = 1;
export const WRONG_TEXT = 2;
export const CONFLICT = 3;
export const OUT_OF_MEMORY = 7;
export const BEHIND = 8;
export const BAD_FILE = 13;
export const OUT_OF_TEXT = 103;
export const NO_NUMBER = 105;
export const NO_MESSAGE = 108;

// A text refused what it was asked.
export class Refused extends Error {
    constructor(number, messages = [], done = 0) {
        const [code, words] = REASONS[number] ?? ['REFUSED', `refusal ${number}`];
        super(words);
        this.name = 'Refused';
        this.code = code;
        this.number = number;
        this.messages = messages;
        this.done = done;
    }
}

// A site has made operations elsewhere that aren't those here: up to the number `seq` others, or `seq`, which isn't here. Its file was copied,
// or an older one put back, and both went on: one of them has to go on as another site.
export class FrontsDiffer extends Refused {
    constructor(number, site, seq) {
        super(number);
        this.name = 'FrontsDiffer';
        this.site = site;
        this.seq = seq;
        const what = this.code === 'CONFLICT' ? `up to ${seq} are others there than here` : `from ${seq} on were made elsewhere`;
        this.message = `operations of site ${site} ${what}: two copies of its file went on`;
    }
}

// The file of a text, or of a note, was changed by something else, or cut off. Nothing is done with it.
export class Damaged extends Error {
    constructor(words, { cause = undefined } = /** @type {{ cause?: unknown }} */ ({})) {
        super(words, { cause });
        this.name = 'Damaged';
        this.code = 'DAMAGED';
    }
}

// What is thrown where what a file has was refused so: but for want of memory, it is damaged.
export function damage(path, why) {
    const isRefused = why instanceof Refused ? why.number !== OUT_OF_MEMORY : why instanceof RangeError;
    return isRefused ? new Damaged(`what ${path} has is refused: ${why.message}`, { cause: why }) : why;
}

// What is thrown where a call answered this number.
export function failure(number, messages = /** @type {Uint8Array[]} */ ([]), done = 0) {
    if (number < MISUSE || REASONS[number] === undefined) return new Refused(number, messages, done);
    const [code, words, Kind] = REASONS[number];
    return Object.assign(new Kind(words), { code, number });
}
