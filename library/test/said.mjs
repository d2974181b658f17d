// The last line of what a test of library/node/tests says.
export async function said(name) {
    const lines = [], { log } = console;
    console.log = (line) => lines.push(line);
    try {
        await import(`../tests/${name}`);
    } finally {
        console.log = log;
    }
    return lines.at(-1);
}
