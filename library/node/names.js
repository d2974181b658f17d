// Sets of characters' names, as ranges that rise and don't touch, and which names a message speaks of.

const INSERT = 1;
const DELETE = 2;
const CHANGE_LOOKS = 3;
// Where a message has what it does, and its site; where an Insert has how long its site's file was, and its looks.
const KIND = 3, SITE = 6, BODY = 20, AT = 26, INSERT_LOOKS = 30;
const RANGE = 10;

const endOf = ({ offset, length }) => offset + length;

function rising(one, other) {
    return one.site - other.site || one.offset - other.offset;
}

// All names of these ranges.
export function united(ranges) {
    const found = [];
    for (const { site, offset, length } of [...ranges].sort(rising)) {
        const last = found.at(-1);
        if (last !== undefined && last.site === site && offset <= endOf(last)) {
            last.length = Math.max(endOf(last), offset + length) - last.offset;
        } else if (length > 0) {
            found.push({ site, offset, length });
        }
    }
    return found;
}

// The first range of a set that ends after a name.
function firstAfter(set, site, offset) {
    let least = 0, most = set.length;
    while (least < most) {
        const middle = (least + most) >> 1;
        const isBefore = set[middle].site < site || (set[middle].site === site && endOf(set[middle]) <= offset);
        if (isBefore) least = middle + 1;
        else most = middle;
    }
    return least;
}

// The parts of a range that are names of a set, and those that aren't, in order.
export function parts(range, set) {
    const { site, offset } = range, end = endOf(range);
    const found = [];
    let at = offset;
    const add = (until, isIn) => {
        if (until > at) found.push({ site, offset: at, length: until - at, isIn });
        at = Math.max(at, until);
    };
    for (let index = firstAfter(set, site, offset); set[index]?.site === site && set[index].offset < end; index += 1) {
        add(set[index].offset, false);
        add(Math.min(endOf(set[index]), end), true);
    }
    add(end, false);
    return found;
}

// The names of one set that aren't of another.
export function without(set, other) {
    return set.flatMap((range) => parts(range, other)).filter(({ isIn }) => !isIn)
        .map(({ site, offset, length }) => ({ site, offset, length }));
}

// -- messages

function looksEnd(view, at) {
    return at + 1 + view.getUint8(at) + 2;
}

function setAt(view, at) {
    return Array.from({ length: view.getUint16(at) }, (_, index) => {
        const beg = at + 2 + RANGE * index;
        return { site: view.getUint16(beg), offset: view.getUint32(beg + 2), length: view.getUint32(beg + 6) };
    });
}

// The names that a message shows, and those that it hides.
export function effectOf(message) {
    const view = new DataView(message.buffer, message.byteOffset, message.byteLength);
    switch (view.getUint8(KIND)) {
        case INSERT: return {
            came: [{ site: view.getUint16(SITE), offset: view.getUint32(AT), length: view.getUint16(looksEnd(view, INSERT_LOOKS)) }], went: [],
        };
        case DELETE: return { came: [], went: setAt(view, BODY) };
        case CHANGE_LOOKS: return { came: [], went: [] };
        default: return { came: setAt(view, BODY), went: [] };
    }
}
