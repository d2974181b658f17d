// Stands for a server: a site that edits nothing, and brings each other one to what it has.
import { Text } from '../../out/node/browser.mjs';

const text = new Text(1, 100);
// How far the copies of the sites go, as they said last.
const sites = new Map();

addEventListener('message', ({ data: { site, fronts, chunks } }) => {
    const isNew = !sites.has(site);
    for (const chunk of chunks) text.unpack(chunk);
    sites.set(site, fronts);
    for (const [other, theirs] of sites) {
        const lacking = text.pack(theirs);
        const isAnswer = other === site && (isNew || chunks.length > 0);
        if (lacking.length > 0 || isAnswer) {
            postMessage({ site: other, fronts: text.fronts(), chunks: lacking, kept: text.store({ packed: true }).length });
        }
    }
});
// What is sent to a worker before it listens is lost, so it says that it does.
postMessage('listening');
