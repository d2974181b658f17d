// Chunks that are merged without a text: against texts that take the same chunks one by one. In Node, pages and workers.
import { assert, Buffer, rounds, vialshoal } from './here.js';
import { drawn, edited } from './random.js';

const { Backlog, Text, mergeChunks } = vialshoal;
const ROUNDS = rounds(100);

// What three sites hand out, chunk by chunk.
function handedOut(draw, texts, turns) {
    const chunks = [];
    for (let turn = 0; turn < turns; turn += 1) {
        const text = texts[draw(3)];
        if (draw(4) === 0) texts.filter((other) => other !== text).forEach((other) => text.merge(other));
        else chunks.push(...text.batch(() => { for (let edits = draw(4); edits >= 0; edits -= 1) edited(draw, text); }));
    }
    return chunks;
}

// What a text has that takes chunks in, as far as they are ready.
function taken(chunks, text = new Text(1, 9)) {
    const backlog = new Backlog(text);
    chunks.forEach((chunk) => backlog.take(chunk));
    return { messages: [...text.since([])].map((it) => it.toString('hex')).sort(), fronts: text.fronts(), shown: `${text}`, runs: text.runs() };
}

function shuffled(draw, list) {
    return list.map((one) => ({ one, at: draw(1000) })).sort((one, other) => one.at - other.at).map(({ one }) => one);
}

function merges(draw) {
    const texts = [1, 2, 3].map((site) => new Text(1, site)), far = new Text(1, 8);
    const first = handedOut(draw, texts, draw(20));
    far.merge(texts[0]);
    const chunks = [...first, ...handedOut(draw, texts, draw(20))];
    const merged = mergeChunks(shuffled(draw, [...chunks, ...chunks.slice(0, 3), ...texts[1].pack()]));
    // All is there once, and each is ready.
    const text = new Text(1, 7);
    for (const chunk of merged) {
        const { known, waiting } = text.unpack(chunk);
        assert.deepEqual([known, waiting], [0, 0]);
    }
    assert.deepEqual(taken(merged), taken(chunks));
    assert.deepEqual(mergeChunks(merged), merged);
    assert.deepEqual(mergeChunks(merged, text.fronts()), []);
    // Some and the rest are all; and one who is so far gets the rest.
    const some = chunks.filter(() => draw(2) === 0), rest = chunks.filter((chunk) => !some.includes(chunk));
    assert.deepEqual(mergeChunks([...mergeChunks(rest), ...mergeChunks(some)]), merged);
    assert.deepEqual(taken(mergeChunks(chunks, far.fronts()), far), taken(chunks));
}

for (let seed = 1; seed <= ROUNDS; seed += 1) merges(drawn(seed));

// Much becomes chunks of 16,000 bytes; the same as a text packs, where one site wrote it.
const text = new Text(1, 1), other = new Text(1, 2);
const made = text.paste(0, Uint8Array.from({ length: 70_000 }, (_, at) => at % 256));
for (let at = 0; at < 400; at += 1) made.push(...text.batch(() => text.insert(at * 7, '\x0f')));
assert.ok(Buffer.concat(mergeChunks(text.pack())).equals(Buffer.concat(text.pack())));
other.merge(text);
made.push(...other.paste(5, 'other'));
const merged = mergeChunks(made.reverse());
assert.ok(merged.length < made.length / 20 && merged.every((chunk) => chunk.length <= 16_000));
assert.equal(taken(merged).shown, `${other}`);

// What is no chunk, and what differs, is refused.
const [chunk] = new Text(1, 1).paste(0, 'here'), none = (bytes) => [Buffer.from(bytes, 'latin1')];
for (const [chunks, code] of /** @type {[Uint8Array[], string][]} */ ([
    [none(''), 'MALFORMED'], [none('OTC1'), 'MALFORMED'], [none('OTC1\0\x01x'), 'MALFORMED'], [[chunk.subarray(0, -1)], 'MALFORMED'],
    [none('OTC1\0\x01\x0f\x02\x01\x01\0\x04\x02x'), 'MALFORMED'], [[chunk, new Text(1, 1).paste(0, 'else')[0]], 'CONFLICT'],
    [[chunk, new Text(2, 1).paste(0, 'x')[0]], 'WRONG_TEXT'],
])) assert.throws(() => mergeChunks(chunks), { name: 'Refused', code });
assert.throws(() => mergeChunks(['none']), TypeError);
assert.deepEqual(mergeChunks([]), []);
console.log('merging: all is so');
