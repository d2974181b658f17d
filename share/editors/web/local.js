// Begins the page of a note whose engine is on this machine.
import { Connection } from "./connection.js";
import { Page } from "./page.js";

new Page((told) => new Connection(told));
