// Finds a member by a part of the name, and does something with who is chosen: an answer at the counter, or a withdrawal.
import { at, button, made } from "./made.js";
import { call, tried } from "./call.js";
import { chosen, print, withdraw } from "./folders.js";

// A field in which a part of a name is typed, with a list of who may be meant below it. `side` is P, R, or empty for both.
function finder(id, title, side, does) {
  let place = -1, asked = 0, found = [];
  const list = made("ul", { id: `${id}-people`, role: "listbox", "aria-label": title, class: "people", hidden: true });
  const input = made("input", { id, role: "combobox", "aria-expanded": "false", "aria-controls": list.id, "aria-autocomplete": "list", autocomplete: "off" });
  const point = (to) => {
    place = to;
    [...list.children].forEach((one, index) => one.setAttribute("aria-selected", String(index === to)));
    if (to >= 0) input.setAttribute("aria-activedescendant", `${id}-${to}`);
    else input.removeAttribute("aria-activedescendant");
  };
  const shut = () => {
    list.hidden = true;
    input.setAttribute("aria-expanded", "false");
    point(-1);
  };
  const take = ([whose, , label, key]) => {
    shut();
    input.value = label;
    does(key, label, whose);
  };
  const ask = tried(async () => {
    const mine = (asked += 1);
    const told = input.value.trim() ? await call("members", { folder: chosen(), part: input.value, side }) : { members: [], count: 0 };
    if (mine !== asked) return;
    found = told.members;
    const left = told.count - found.length, more = left > 0 ? [made("li", { role: "option", "aria-disabled": "true" }, `and ${left} more: type more of the name`)] : [];
    const shown = found.map((one, index) => made("li", { role: "option", id: `${id}-${index}` }, side ? one[2] : `${one[2]}, ${one[1]}`));
    shown.forEach((one, index) => one.addEventListener("mousedown", (event) => { event.preventDefault(); take(found[index]); }));
    list.replaceChildren(...shown, ...more);
    list.hidden = !found.length;
    input.setAttribute("aria-expanded", String(found.length > 0));
    point(-1);
  });
  input.addEventListener("input", ask);
  input.addEventListener("blur", shut);
  input.addEventListener("keydown", (event) => {
    const turn = { ArrowDown: 1, ArrowUp: -1 }[event.key];
    if (event.key === "Escape") shut();
    if (list.hidden || !found.length) return;
    if (turn) point((Math.max(place, turn < 0 ? 0 : -1) + turn + found.length) % found.length);
    else if (event.key === "Enter") take(found[Math.max(0, place)]);
    else return;
    event.preventDefault();
  });
  return made("label", {}, title, input, list);
}

const answer = tried(async (key) => {
  const [who, stands, ...choices] = await call("why", { folder: chosen(), member: key });
  const letter = tried(async () => print(await call("letter", { folder: chosen(), member: key, day: at("day").value })));
  at("why").replaceChildren(made("h3", {}, who), made("p", {}, made("b", {}, stands)), made("ul", { class: "reasons" }, ...choices.map((one) => made("li", {}, one))),
    button("Print it as a letter", letter));
});

export function begin() {
  at("ask").append(finder("part", "Name of the resident", "R", answer));
  at("withdraw").append(finder("gone", "Who withdraws", "", (key, label, side) => withdraw(key, label, side)));
}
