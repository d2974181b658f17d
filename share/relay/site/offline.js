// The service worker, by which the page opens without its relay. It keeps to the version for which it was begun, whatever is offered:
// that is named by the digest of the page's first file, which has the addresses of the others, and these have their digests.
"use strict";

{
  const worker = /** @type {any} */ (globalThis);
  const { origin, pathname: own, searchParams } = new URL(worker.location.href);
  const [FRONT, VERSION, CACHES] = ["/", searchParams.get("page") ?? "", "page "];
  const CACHE = CACHES + VERSION;
  const NAMED = /(?<=["'])\.\/([a-z]+\.([0-9a-f]{32})\.(?:js|css|html|wasm))(?=["'])/g;
  const ADDRESS = /^\/[a-z]+\.([0-9a-f]{32})\.(?:js|css|wasm)$/;
  // What is kept once it is asked for: no text needs it to be shown, and it is large.
  const LATER = /^\/markdownit\./;
  const DOCUMENT = /^\/note\.[0-9a-f]{32}\.html$/;
  const TYPES = { "/": "text/html; charset=utf-8", html: "text/html; charset=utf-8", js: "text/javascript; charset=utf-8",
    css: "text/css; charset=utf-8", wasm: "application/wasm" };
  // What is kept of what a server says of a file. Nothing else is, since some of it loads more.
  const RULES = ["Content-Security-Policy", "Cross-Origin-Opener-Policy", "Cross-Origin-Resource-Policy", "Permissions-Policy",
    "Referrer-Policy", "X-Content-Type-Options", "X-DNS-Prefetch-Control", "X-Frame-Options"];

  /** A file as it is offered, which has to be the one that begins with this digest.
   * @param {string} address @param {string} digest */
  async function fetched(address, digest) {
    const answer = await fetch(address, { cache: "no-cache", credentials: "omit", redirect: "error" });
    const data = await answer.arrayBuffer();
    const found = Array.from(new Uint8Array(await crypto.subtle.digest("SHA-256", data)), (byte) => byte.toString(16).padStart(2, "0")).join("");
    if (!answer.ok || !digest || !found.startsWith(digest)) throw new Error(`${address} isn't of the version ${VERSION}.`);
    const type = TYPES[/** @type {keyof TYPES} */ (address.split(".").pop() ?? "")];
    const headers = new Headers({ "Content-Type": type });
    for (const name of RULES) if (answer.headers.has(name)) headers.set(name, answer.headers.get(name) ?? "");
    return new Response(data, { headers });
  }

  /** Keeps all files of the version, of which this one is one. */
  async function keep() {
    const cache = await caches.open(CACHE);
    const files = new Map([[FRONT, VERSION]]);
    // What a file names is met in its turn.
    for (const [address, digest] of files) {
      if (LATER.test(address)) continue;
      const answer = await fetched(address, digest);
      for (const [, name, named] of (await answer.clone().text()).matchAll(NAMED)) files.set(`/${name}`, named);
      await cache.put(address, answer);
    }
    if (!files.has(own)) throw new Error(`${own} isn't of the version ${VERSION}.`);
  }

  /** A file of the version that isn't kept yet.
   * @param {string} address @param {string} digest */
  async function missing(address, digest) {
    const answer = await fetched(address, digest);
    if (LATER.test(address)) await (await caches.open(CACHE)).put(address, answer.clone());
    return answer;
  }

  async function begin() {
    try {
      await keep();
    } catch (why) {
      if (!worker.registration.active) await caches.delete(CACHE);
      throw why;
    }
    // It was begun because a user said so, or since there was none.
    await worker.skipWaiting();
  }

  /** The first file. Where the browser has dropped it, what is offered is shown, which says so if it is of another version. */
  async function front() {
    const kept = await (await caches.open(CACHE)).match(FRONT);
    if (kept) return kept;
    try {
      await keep();
      return await fetched(FRONT, VERSION);
    } catch {
      return fetch(FRONT, { cache: "no-cache", credentials: "omit" });
    }
  }

  /** The page of a note's text, of this version alone: whoever has the address of another one comes to the front.
   * @param {string} address */
  async function text(address) {
    return await (await caches.open(CACHE)).match(address) ?? Response.redirect(FRONT);
  }

  /** What else the server has there, as text alone: a document that runs something could read all notes.
   * @param {string} address */
  async function asText(address) {
    const answer = await fetch(address, { cache: "no-cache", credentials: "omit", redirect: "error" });
    return new Response(await answer.text(), { headers: { "Content-Type": "text/plain; charset=utf-8", "X-Content-Type-Options": "nosniff" } });
  }

  /** Drops what other versions had, once no window is open that may need it. */
  async function forget() {
    if ((await worker.clients.matchAll({ includeUncontrolled: true, type: "window" })).length) return;
    const others = (await caches.keys()).filter((name) => name.startsWith(CACHES) && name !== CACHE);
    await Promise.all(others.map((name) => caches.delete(name)));
  }

  worker.addEventListener("install", (/** @type {any} */ event) => event.waitUntil(begin()));
  worker.addEventListener("activate", (/** @type {any} */ event) => event.waitUntil(worker.clients.claim()));
  worker.addEventListener("fetch", (/** @type {any} */ event) => {
    const { url, method, mode } = event.request;
    const { pathname, origin: from } = new URL(url);
    if (from !== origin) return;
    const [, digest] = ADDRESS.exec(pathname) ?? [];
    if (method === "GET" && digest) {
      event.respondWith(caches.match(pathname).then((kept) => kept ?? missing(pathname, digest)));
    } else if (method === "GET" && mode === "navigate" && pathname === FRONT) {
      event.respondWith(front());
      event.waitUntil(forget());
    } else if (method === "GET" && mode === "navigate" && DOCUMENT.test(pathname)) {
      event.respondWith(text(pathname));
    } else if (mode === "navigate") {
      event.respondWith(asText(url));
    }
  });
}
