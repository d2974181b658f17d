// Workers begin from this page's own files alone.
const policy = /** @type {any} */ (globalThis).trustedTypes?.createPolicy("relay", {
  createScriptURL: (/** @type {string} */ address) => {
    if (new URL(address).origin !== location.origin) throw new TypeError(address);
    return address;
  },
});

/** The address of a file of the page's as that of a program.
 * @param {URL} address @returns {string} */
export const scriptAddress = (address) => (policy ? policy.createScriptURL(address.href) : address.href);

/** A worker of a file of the page's.
 * @param {URL} address */
export const workerOf = (address) => new Worker(scriptAddress(address), { type: "module" });
