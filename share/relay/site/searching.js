// The worker in which a number is searched for.
import { searched } from "./rank.js";

addEventListener("message", async ({ data: { note, author, taken, begin, zeroBits } }) => {
  postMessage(await searched(note, author, taken, begin, zeroBits));
});
