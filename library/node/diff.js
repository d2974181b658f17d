// What makes one version of a text another one.
import { CUT, DRESS, INSERT, KEEP, PUT, add, changesOf, composed, deltaOf, filled, isAlike } from './delta.js';
import { parts, united } from './names.js';
import { Positions } from './positions.js';

// The steps by which bytes of these names become those of others. What both have is in one order.
function stepsOf(was, is) {
    const [before, after] = [united(was), united(is)];
    const olds = was.flatMap((range) => parts(range, after)), news = is.flatMap((range) => parts(range, before));
    const steps = [];
    for (let i = 0, j = 0; i < olds.length || j < news.length;) {
        const here = olds[i], there = news[j];
        if (here?.isIn === false) {
            add(steps, { step: CUT, length: here.length });
            i += 1;
        } else if (there?.isIn === false) {
            add(steps, { step: PUT, length: there.length });
            j += 1;
        } else {
            const common = Math.min(here.length, there.length);
            add(steps, { step: KEEP, length: common });
            here.length -= common;
            there.length -= common;
            i += Number(here.length === 0);
            j += Number(there.length === 0);
        }
    }
    return steps;
}

// Steps that count bytes as steps that count UTF-16 units.
function inUnits(steps, was, is) {
    const positions = new Positions();
    const [before, after] = [was.bytes(), is.bytes()];
    positions.follow([{ kind: INSERT, beg: 0, end: before.length }], (beg, end) => before.subarray(beg, end));
    positions.tell();
    positions.follow(changesOf(steps), (beg, end) => after.subarray(beg, end));
    return composed(positions.tell());
}

// The looks of a text, from a position on that only rises: those there, and how far they go.
function looksFrom(text) {
    const runs = text.runs();
    let index = 0;
    return (at) => {
        while (runs[index].end <= at) index += 1;
        return runs[index];
    };
}

// What stays in other looks is dressed.
function dressed(steps, was, is) {
    const [old, now] = [looksFrom(was), looksFrom(is)];
    const found = [];
    let from = 0, to = 0;
    const keep = (length) => {
        for (const end = from + length; from < end;) {
            const [here, there] = [old(from), now(to)];
            const common = Math.min(end - from, here.end - from, there.end - to);
            add(found, { step: isAlike(here, there) ? KEEP : DRESS, length: common });
            from += common;
            to += common;
        }
    };
    for (const { step, length } of steps) {
        if (step === KEEP) {
            keep(length);
            continue;
        }
        add(found, { step, length });
        if (step === CUT) from += length;
        else to += length;
    }
    keep(was.length - from);
    return found;
}

// The delta from one text to another one, which are versions of one.
export function between(was, is) {
    const steps = stepsOf(was.nameRanges(0, was.length), is.nameRanges(0, is.length));
    const counted = was.units === 'bytes' ? steps : inUnits(steps, was, is);
    return deltaOf(filled(dressed(counted, was, is), is));
}
