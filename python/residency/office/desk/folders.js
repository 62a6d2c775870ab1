// The match, and what is done with its folders: shown, saved, matched again, compared and verified.
import { at, download, fill, folded, made, several, sure, table } from "./made.js";
import { call, state, tried, work } from "./call.js";
import { desk, list, take } from "./tables.js";

const TITLES = { "page.html": "The page of the match", "letters.html": "The letters to residents", "rosters.html": "The letters to programmes" };
let folders = [];
export const chosen = () => at("folder").value;
export const unsaved = () => folders.some((one) => !one.is_saved);
const about = (name) => folders.find((one) => one.name === name) || { files: [] };
const isMatch = (one) => one.files.includes("sheet.csv");
const called = (one) => (one.title ? `${one.name} – ${one.title}, ${one.day}` : one.name);
const day = () => at("day").value;

// Shows which folders are open.
export async function renew(name) {
  const known = await call("state");
  folders = known.folders;
  const all = folders.map((one) => [one.name, called(one)]), matches = folders.filter(isMatch).map((one) => [one.name, called(one)]);
  for (const [id, options] of Object.entries({ folder: all, checked: all, before: matches, now: matches, after: [["", "none"], ...matches],
    "checked-after": [["", "none"], ...matches] })) {
    // The first match and the last one are compared; no round before is meant where nobody says so.
    const keys = options.map(([key]) => key), otherwise = ["folder", "checked", "now"].includes(id) ? keys[keys.length - 1] : keys[0];
    const wanted = ["folder", "checked", "now"].includes(id) && name ? name : at(id).value;
    fill(at(id), options, keys.includes(wanted) ? wanted : otherwise || "");
  }
  at("none").hidden = folders.length > 0;
  at("results").hidden = !folders.length;
  at("rounds").hidden = !matches.length;
  at("near").replaceChildren(...known.near.map((one) => made("option", { value: one })));
  tell(folders.length ? chosen() : "");
  return known;
}

// What is told of the folder that is chosen, and what can be done with it.
function tell(name) {
  const one = about(name);
  at("about").textContent = name ? `${called(one)}. ${one.is_saved ? "" : "Not saved yet. "}` : "";
  at("out").placeholder = name;
  for (const it of document.querySelectorAll("[data-show], [data-print]")) it.hidden = !one.files.includes(it.dataset.show || it.dataset.print);
  at("match-sealed").hidden = !one.sealed || isMatch(one);
  at("next").hidden = !isMatch(one);
  at("of-folder").hidden = !one.title;
  at("roots").hidden = !one.sealed;
  at("frame").hidden = true;
  if (one.sealed) {
    const { members, ...roots } = one.sealed, there = Object.entries(roots).filter(([, root]) => root);
    at("roots").replaceChildren(made("p", {}, "Publish what is in the folder public, and these roots wherever members look:"),
      table(["Root", "To publish"], there.map(([word, root]) => [`Root of the ${word}`, made("code", {}, `${members},${root}`)])));
  }
}

// Does a step that makes a folder, and shows the folder.
const making = (name, said, done) => tried(async () => {
  let answer;
  try {
    answer = await work(name, { settings: desk.settings, day: day(), ...said() });
  } catch (error) {
    if (error.faults) list(error.faults);
    throw error;
  }
  const folder = answer.folder || answer;
  await renew(folder);
  if (about(folder).files.includes("page.html")) await show("page.html");
  state(done(folder), "good");
  at("result").focus();
  return answer;
});

const view = async (file) => call("view", { folder: chosen(), file });
const show = tried(async (file) => {
  const address = await view(file);
  if (!file.endsWith(".html")) return download(address, file);
  at("frame").hidden = false;
  at("frame").title = TITLES[file];
  at("frame").src = address;
});
export const print = (address) => window.open(address, "_blank");

const run = () => (document.querySelector("[name=how]:checked").value === "seal" ? seal : match)();
const round = () => ({ after: at("after").value, new: at("new").checked ? "yes" : "" });
const match = making("match", round, () => "The match is made. It is stable, and its journal follows the rules.");
const seal = making("seal", () => ({}), (folder) => `The lists are sealed in ${folder}. Publish the roots, save the folder, and match what was sealed.`);
const ofSealed = making("match", () => ({ sealed: chosen(), ...round() }),
  () => "What was sealed is matched. Publish the roots, and give all members their receipts.");
const next = making("next", () => ({ folder: chosen() }),
  (folder) => `The tables of a next round are in ${folder}. Save them, fill in the lists, and give them above.`);

export const changes = (rows) => folded([...new Set(rows.map(([kind]) => kind))].map((kind) => {
  const those = rows.filter(([one]) => one === kind).map(([, ...others]) => others);
  return [`${those.length} ${kind}`, table(["Member", "Before", "Now"], those)];
}));

export const withdraw = async (key, label, side) => {
  const whom = side === "P" ? "programme" : "resident", said = () => ({ folder: chosen(), member: key, side });
  const question = `Withdraw ${label}, and match again without this ${whom}? The folder of before stays as it is.`;
  if (!(await sure(question, "Withdraw and match again"))) return;
  const done = await making("withdraw", said, (folder) => `${label} is withdrawn, in ${folder}. The folder of before is unchanged.`)();
  if (done) at("without").replaceChildren(made("h4", {}, `${several(done.changes.length, "member")} who stand otherwise`), ...changes(done.changes));
};

const compare = tried(async () => {
  const told = await work("compare", { before: at("before").value, now: at("now").value });
  at("compared").replaceChildren(table(["Figure", "Before", "Now"], told.figures), made("p", {}, told.said), ...changes(told.changes));
  state("Compared.", "good");
});

const save = tried(async () => {
  const saved = await call("save", { folder: chosen(), out: at("out").value.trim() || at("out").placeholder });
  await renew(chosen());
  state(`Saved in ${saved}.`, "good");
});

const zip = tried(async () => {
  const name = chosen();
  download(await view(""), `${name}.zip`);
  await renew(name);
  state(`${name}.zip is in your downloads.`, "good");
});

const open = tried(async () => {
  const name = await call("open", { path: at("path").value.trim() });
  await renew(name);
  state(`${name} is open.`, "good");
});

// What the command's options are at the desk.
const OPTIONS = { " (--tables)": "", " (--after)": "", "--lists": "the root of the lists", "--result": "the root of the result", "N,ROOT": "its number" };
const atDesk = (text) => Object.entries(OPTIONS).reduce((said, [option, other]) => said.replaceAll(option, other), text);

// Verifies a folder, each line as soon as it is known.
const verify = tried(async () => {
  const lines = made("ul", { class: "checks" });
  const said = { folder: at("checked").value, lists: at("root-lists").value.trim(), result: at("root-result").value.trim(), after: at("checked-after").value,
    tables: at("with-tables").checked ? "yes" : "" };
  const verdict = made("p", {}, "Every part is checked …");
  at("held").replaceChildren(verdict, made("details", { open: true }, made("summary", {}, "Each check"), lines));
  const tells = (one) => {
    if (!Array.isArray(one)) return;
    const [what, text, holds] = one, sign = { true: "✓ ", false: "✗ " }[holds] || "";
    lines.append(made("li", { class: holds === false && "no" }, sign, what ? `${what}: ` : "", text));
  };
  const done = await work("verify", said, tells);
  verdict.textContent = done.wrong.length ? `This does not hold: ${done.wrong.join(", ")}.` : `It holds: ${done.held.join(", ")}.`;
  if (done.unchecked.length) verdict.after(made("p", {}, "Not checked:"), made("ul", {}, ...done.unchecked.map((one) => made("li", {}, atDesk(one)))));
  state(verdict.textContent, done.wrong.length ? "bad" : "good");
});

const saveSettings = tried(async () => {
  const text = await call("save_settings", { settings: desk.settings });
  const address = URL.createObjectURL(new Blob([text], { type: "text/plain" }));
  download(address, "residency-office.ini");
  setTimeout(() => URL.revokeObjectURL(address), 60000);
});
const openSettings = tried(async (event) => {
  const [file] = event.target.files;
  if (file) await take(await call("open_settings", { name: file.name, text: await file.text() }));
  event.target.value = "";
});
const ofFolder = tried(async () => {
  await take(await call("open_settings", { folder: chosen() }));
  state(`The settings of ${chosen()} are taken.`, "good");
});

// What each control of these parts does.
export function begin() {
  const does = { run, save, zip, open, next, compare, check: verify, "match-sealed": ofSealed, "of-folder": ofFolder, "save-settings": saveSettings };
  for (const [id, call] of Object.entries(does)) at(id).addEventListener("click", () => call());
  at("open-settings").addEventListener("change", openSettings);
  at("folder").addEventListener("change", () => tell(chosen()));
  for (const one of document.querySelectorAll("[data-show]")) one.addEventListener("click", () => show(one.dataset.show));
  for (const one of document.querySelectorAll("[data-print]")) one.addEventListener("click", tried(async () => print(await view(one.dataset.print))));
  for (const one of document.querySelectorAll("[name=how]")) one.addEventListener("change", () => {
    at("run").textContent = document.querySelector("[name=how]:checked").value === "seal" ? "Seal the lists" : "Make the match";
  });
  desk.when = (isReady) => { at("run").disabled = !isReady; };
  at("day").value = new Date(Date.now() - 60000 * new Date().getTimezoneOffset()).toISOString().slice(0, 10);
}
