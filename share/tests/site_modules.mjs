// Does in Node, in a folder with the modules of a relay's page, what lines of JSON on standard input ask; answers each in a line.
import { createInterface } from 'node:readline';

const { answered } = await import(`${process.argv[2]}/trial.js`);

for await (const line of createInterface({ input: process.stdin })) {
  const answer = await answered(JSON.parse(line), (what) => process.stdout.write(`${JSON.stringify(what)}\n`));
  process.stdout.write(`${answer}\n`);
}
