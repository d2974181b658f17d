// Runs a test in a worker: its name comes as a message, and the last line of what it says goes back.
import { said } from './said.mjs';

addEventListener('message', ({ data }) => said(data).then(postMessage, (why) => postMessage(String(why))));
postMessage('listening');
