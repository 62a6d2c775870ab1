// Runs the page's own code over receipts, under node or in a browser: `CASES` has the published roots and receipts of each case.
// A receipt is shown as the page shows it, alone or with another one, and then tried with each of its bytes altered in turn. Under node small
// elements stand for the browser's, and the page's controls are used, too: `GIVEN` is a receipt, or null, and `OTHER` one beside it, or null.
"use strict";
class Piece {
  constructor(name) { Object.assign(this, { tagName: name.toUpperCase(), className: "", textContent: "", children: [], heard: {}, files: [], text: "" }); }
  append(...those) { this.children.push(...those); }
  replaceChildren(...those) { this.children = those; }
  addEventListener(what, call) { this.heard[what] = call; }
  focus() { focused = this; }
  get value() { return this.text; }
  set value(text) { this.text = text; this.files = []; }
}
let focused = null;
const known = {};
if (typeof document === "undefined") {
  globalThis.document = { createElement: (name) => new Piece(name), getElementById: (id) => known[id] || (known[id] = new Piece(id)) };
}
const told = [];
const wordsIn = (one) => (one.tagName === "OL" ? Array.from(one.children, (item) => item.textContent) : `${one.tagName} ${one.textContent}`);
const partIn = (one) => (one.tagName === "DIV" ? [one.className, ...Array.from(one.children, wordsIn)] : wordsIn(one));
const shownNow = () => {
  const parts = Array.from(document.getElementById("answer").children, partIn);
  return parts.length === 1 ? parts[0] : parts;
};
for (const { published, receipt, other, altered } of CASES) {
  const bytes = bytesOf(atob(receipt));
  try {
    tell(...[bytes, ...(other === null ? [] : [bytesOf(atob(other))])].map((one) => check(one, published)));
    told.push(shownNow());
  } catch (error) {
    told.push(["thrown", String(error)]);
  }
  const accepted = [];
  altered.forEach((byte, at) => {
    const other = bytes.slice();
    other[at] = byte;
    if (check(other, published).holds) accepted.push(at);
  });
  told.push(accepted);
}

// What is shown where a receipt is chosen and nothing is pasted, and so on: each of what is given in turn, then the button.
async function used(...given) {
  for (const id of Object.keys(known)) delete known[id];
  start();
  const text = document.getElementById("text");
  for (const [how, what] of given) {
    const control = document.getElementById(how);
    if (how === "text") control.text = what;
    else control.files = [{ arrayBuffer: async () => { if (what === null) throw new Error("gone"); return new TextEncoder().encode(what).buffer; } }];
    (control.heard[how === "text" ? "input" : "change"] || (() => {}))();
  }
  let isKept = true;
  document.getElementById("form").heard.submit({ preventDefault() { isKept = false; } });
  await new Promise((done) => setTimeout(done, 20));
  return [isKept, focused === document.getElementById("answer"), text.text, shownNow(), document.getElementById("pair").hidden];
}

async function end() {
  const given = GIVEN || "", ways = [[["file", GIVEN]], [["text", GIVEN]], [["text", "x"], ["file", GIVEN]], [["file", "x"], ["text", GIVEN]], [["file", GIVEN], ["text", "x"]],
    [["text", GIVEN], ["file", "x"]], [], [["text", " \r\n"]], [["file", null]], [["text", given.replace(/\n/g, "\r\n")]]];
  if (OTHER) ways.push([["file", GIVEN], ["other", OTHER]], [["file", OTHER], ["other", GIVEN]], [["text", GIVEN], ["other", OTHER]], [["other", OTHER], ["text", GIVEN]],
    [["other", OTHER]], [["file", GIVEN], ["other", null]], [["file", GIVEN], ["other", GIVEN]]);
  const uses = [];
  for (const way of GIVEN ? ways : []) uses.push(await used(...way));
  if (typeof process === "undefined") document.body.textContent = `told:${JSON.stringify([told, uses])}:told`;
  else console.log(JSON.stringify([told, uses]));
}
end();
