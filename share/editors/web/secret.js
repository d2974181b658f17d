// The page's first script: takes the secret out of the address, before anything else is loaded. A tab keeps it, so that the
// page can be loaded anew.
function takeSecret() {
  if (location.hash.length > 1) sessionStorage.setItem("secret", location.hash.slice(1));
  history.replaceState(null, "", location.pathname + location.search);
}

takeSecret();
addEventListener("hashchange", () => {
  takeSecret();
  location.reload();
});
