// The page's elements, into which texts go as texts alone.

/** @param {string} id @returns {any} */
export const byId = (id) => document.getElementById(id);

/** @param {string} tag @param {...(string | Node)} children */
export function element(tag, ...children) {
  const one = document.createElement(tag);
  one.append(...children);
  return one;
}

/** Says something that stays until the page is loaded again.
 * @param {string} words */
export function tell(words) {
  const said = byId("words");
  if (![...said.children].some((one) => one.textContent === words)) said.append(element("p", words));
}

/** What a user answers to a question; nothing where he doesn't. With `text` he is to write something.
 * @param {string} question @param {string | null} text @returns {Promise<string | null>} */
export function ask(question, text = null) {
  const [dialog, answer] = [byId("asking"), byId("answer")];
  byId("question").textContent = question;
  answer.hidden = text === null;
  answer.value = text ?? "";
  dialog.returnValue = "";
  dialog.showModal();
  return new Promise((done) => {
    dialog.addEventListener("close", () => done(dialog.returnValue ? answer.value : null), { once: true });
  });
}
