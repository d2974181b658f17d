// Takes the link out of the address before anything else is loaded, so that nobody reads it there. A browser may have kept it before.
"use strict";

/** @type {any} */ (window).given = location.hash;
if (location.hash || location.search) history.replaceState(null, "", location.pathname);
