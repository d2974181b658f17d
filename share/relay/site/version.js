// Which version of the page this browser keeps, and whether the relay offers another one, which is taken as a user says so.
import { Trouble, hex } from "./bytes.js";
import { byId, tell } from "./elements.js";
import { sha256 } from "./keys.js";
import { scriptAddress } from "./trusted.js";

const [SCOPE, FRONT_FILE, LOOK_MS] = ["/", "index.html", 3_600_000];
const WORKER = new URL("./offline.js", import.meta.url);
const ITS_WORKER = /^([0-9a-f]{64}) {2}(offline\.[0-9a-f]{32}\.js)$/m;
const NOT_KEPT = "That version isn't what its digests say, or there is no room for it. This browser stays with the one that it has.";
const CHANGED = "The relay has put another program in place of the one by which this browser keeps to its version, under the same address, "
  + "which no honest relay does. Whoever runs it can read the notes that are opened here.";

/** The version that a worker keeps to, by the digest of its first file.
 * @param {ServiceWorker | null | undefined} worker */
const versionOf = (worker) => (worker ? new URL(worker.scriptURL).searchParams.get("page") ?? "" : "");

/** @param {string} address */
async function asked(address) {
  const answer = await fetch(address, { cache: "no-cache", credentials: "omit" });
  if (!answer.ok) throw new Trouble(`The relay doesn't offer ${address}.`);
  return new Uint8Array(await answer.arrayBuffer());
}

/** Has a worker keep a version, if that is all there; the one of before goes on until then.
 * @param {URL} address @param {string} version */
async function take(address, version) {
  const script = new URL(`${address.pathname}?page=${version}`, address);
  const how = /** @type {RegistrationOptions} */ ({ scope: SCOPE, updateViaCache: "all" });
  const { installing, waiting } = await navigator.serviceWorker.register(/** @type {any} */ (scriptAddress(script)), how);
  const worker = installing ?? waiting;
  if (!worker) return;
  await /** @type {Promise<void>} */ (new Promise((done, failed) => {
    const look = () => {
      if (worker.state === "activated") done();
      else if (worker.state === "redundant") failed(new Trouble(NOT_KEPT));
    };
    worker.addEventListener("statechange", look);
    look();
  }));
}

/** The digests of what is kept of a version, as sha256sum writes them.
 * @param {string} version */
async function digestsOf(version) {
  const cache = await caches.open(`page ${version}`);
  const lines = await Promise.all((await cache.keys()).map(async ({ url }) => {
    const answer = await cache.match(url);
    const name = new URL(url).pathname.slice(1) || FRONT_FILE;
    return [name, `${hex(await sha256(new Uint8Array(await answer?.arrayBuffer() ?? [])))}  ${name}`];
  }));
  return lines.sort().map(([, line]) => line);
}

/** Shows another version that is offered, by the digests in which it differs. */
class Offered {
  #does;
  #version = "";
  #digests = "";

  /** @param {(work: () => Promise<unknown>) => void} does what a user asked for */
  constructor(does) {
    this.#does = does;
    byId("take").addEventListener("click", () => this.#does(() => this.#take()));
  }

  /** @param {string} kept @param {string} version */
  async show(kept, version) {
    byId("offered").hidden = !kept || version === kept;
    if (byId("offered").hidden || version === this.#version) return;
    this.#version = version;
    this.#digests = new TextDecoder().decode(await asked("/digests"));
    const [here, there] = [await digestsOf(kept), this.#digests.trim().split("\n")];
    byId("kept-digests").textContent = here.filter((line) => !there.includes(line)).join("\n");
    byId("offered-digests").textContent = there.filter((line) => !here.includes(line)).join("\n");
  }

  async #take() {
    const [, digest, name] = ITS_WORKER.exec(this.#digests) ?? [];
    if (!digest?.startsWith(name?.split(".")[1] ?? "-") || !this.#digests.includes(`${this.#version}  ${FRONT_FILE}\n`)) {
      throw new Trouble(NOT_KEPT);
    }
    await take(new URL(`/${name}`, location.href), this.#version);
    location.reload();
  }
}

/** Keeps the version of which a file is shown, where none is kept yet; the one that is offered.
 * @param {string} shown the file's address */
export async function keepFirst(shown) {
  const { serviceWorker } = navigator;
  const data = await asked("/");
  const version = hex(await sha256(data));
  const { active } = await serviceWorker.getRegistration(SCOPE) ?? {};
  if (!active && new TextDecoder().decode(data).includes(new URL(shown).pathname)) {
    // Where there is no room the page goes on as it is.
    await take(WORKER, version).catch(() => {});
  }
  return version;
}

/** Keeps the version that is shown, where none is kept yet, and looks again and again for another one.
 * @param {string} front the address of the page's first module @param {(work: () => Promise<unknown>) => void} does */
export async function keepVersion(front, does) {
  const { serviceWorker } = navigator;
  if (!serviceWorker) return;
  const shown = new Offered(does);
  const look = async () => {
    const version = await keepFirst(front);
    await say();
    await shown.show(versionOf((await serviceWorker.getRegistration(SCOPE))?.active), version);
  };
  const say = async () => {
    const kept = versionOf((await serviceWorker.getRegistration(SCOPE))?.active);
    byId("version").textContent = kept ? `Version ${kept.slice(0, 16)} is kept here, and opens without the relay.` : "";
  };
  // What can't be reached, or kept, now is looked at later.
  const lookAgain = () => look().catch((why) => (why instanceof Trouble ? tell(why.message) : undefined));
  serviceWorker.addEventListener("controllerchange", () => void say());
  (await serviceWorker.getRegistration(SCOPE))?.addEventListener("updatefound", ({ target }) => {
    const { installing, active } = /** @type {ServiceWorkerRegistration} */ (target);
    if (installing && installing.scriptURL === active?.scriptURL) tell(CHANGED);
  });
  addEventListener("online", lookAgain);
  setInterval(lookAgain, LOOK_MS);
  await say();
  await lookAgain();
}
