// Small parts of a page. Text of a table or of an answer is put into the page as text alone.
export const at = (id) => document.getElementById(id);

// An element with what is said of it: attributes, what it does when something happens (`on...`), and what is in it.
export function made(name, words = {}, ...inside) {
  const one = document.createElement(name);
  for (const [key, value] of Object.entries(words)) {
    if (key.startsWith("on")) one.addEventListener(key.slice(2), value);
    else if (value === true) one.setAttribute(key, "");
    else if (value !== false && value !== undefined) one.setAttribute(key, value);
  }
  one.append(...inside);
  return one;
}

// A list to choose from; a value that isn't in it is added to it.
export function fill(list, options, value) {
  list.replaceChildren(...options.map(([key, text]) => made("option", { value: key }, text)));
  list.value = value;
  if (list.value !== value) list.append(made("option", { value }, value));
  list.value = value;
  return list;
}

export const choice = (options, value, words) => fill(made("select", words), options, value);
export const button = (text, does) => made("button", { type: "button", onclick: does }, text);
export const number = (count) => count.toLocaleString("en");
export const several = (count, one, more = `${one}s`) => `${number(count)} ${count === 1 ? one : more}`;

// What a spreadsheet calls a column that counts from 1.
export const letters = (column) => (column > 0 ? letters(Math.floor((column - 1) / 26)) + String.fromCharCode(65 + ((column - 1) % 26)) : "");

// A table of texts below their heads.
export function table(heads, rows) {
  const head = made("tr", {}, ...heads.map((one) => made("th", { scope: "col" }, one)));
  const body = rows.map(([first, ...others]) => made("tr", {}, made("th", { scope: "row" }, first), ...others.map((one) => made("td", {}, one))));
  return made("table", { class: "plain" }, made("thead", {}, head), made("tbody", {}, ...body));
}

// Parts folded by their kind: each kind's title with how many there are, of which the first is open.
export function folded(kinds) {
  return kinds.map(([title, inside], place) => made("details", { open: place === 0 }, made("summary", {}, title), inside));
}

// Asks a question before something is done.
export function sure(question, yes) {
  const asked = at("question");
  at("asks").textContent = question;
  at("yes").textContent = yes;
  asked.showModal();
  return new Promise((answer) => {
    at("yes").onclick = () => asked.close("yes");
    at("no").onclick = () => asked.close("no");
    asked.onclose = () => answer(asked.returnValue === "yes");
    asked.returnValue = "no";
  });
}

// Gives a text or a file to the browser's downloads.
export function download(address, name) {
  const link = made("a", { href: address, download: name });
  document.body.append(link);
  link.click();
  link.remove();
}
