// The two tables: how each is read, with a list to change it; its first rows; and what is at fault, beside the very cells.
import { at, button, choice, fill, folded, letters, made, number, several } from "./made.js";
import { call, state, tried, upload } from "./call.js";

export const TABLES = ["programmes", "residents"];
const SETS = [["utf-8", "UTF-8 (Unicode)"], ["utf-16", "UTF-16 (Unicode)"], ["cp1252", "Western European (Windows-1252)"], ["iso8859-1", "Western European (ISO-8859-1)"],
  ["cp1250", "Central European (Windows-1250)"], ["iso8859-2", "Central European (ISO-8859-2)"], ["cp852", "Central European (DOS 852)"], ["cp1254", "Turkish (Windows-1254)"],
  ["cp1257", "Baltic (Windows-1257)"], ["cp1251", "Cyrillic (Windows-1251)"], ["koi8-r", "Cyrillic (KOI8-R)"], ["cp1253", "Greek (Windows-1253)"],
  ["mac-roman", "Macintosh (Mac Roman)"], ["shift_jis", "Japanese (Shift-JIS)"], ["gb18030", "Chinese (GB 18030)"], ["big5", "Chinese (Big5)"], ["euc_kr", "Korean (EUC-KR)"]];
const MARKS = [[",", "commas"], [";", "semicolons"], ["\t", "tabs"], ["|", "bars"]];
const ROLES = {
  programmes: [["", "left out"], ["programme", "Programme"], ["places", "Places"], ["id", "ID"], ["rank", "Rank"], ["resident", "Applicant"], ["given", "First name"],
    ["family", "Last name"], ["withdrawn", "Withdrawn"]],
  residents: [["", "left out"], ["resident", "Applicant"], ["given", "First name"], ["family", "Last name"], ["id", "ID"], ["rank", "Rank"], ["programme", "Programme"],
    ["withdrawn", "Withdrawn"], ["kept", "kept for letters"]],
};
const TEXTS = ["sender", "appeals", "signature"], SAID = ["title", "language", "order"];
const MOST_CAUSES = 3, LONG = 160, MOST_MEGABYTES = 256;

// What the page knows of the tables: how they are to be read, and which are given. `asked` counts the checks, of which the last one is shown.
export const desk = { settings: {}, given: {}, asked: 0, heads: {}, when: () => {} };

const part = (section) => (desk.settings[section] = desk.settings[section] || {});
const put = (section, name, value) => {
  if (value === "" || value === false) delete part(section)[name];
  else part(section)[name] = value;
};
const words = (name) => part("tables")[name] || [];
const nameOfSet = (name) => (SETS.find(([one]) => one === plainSet(name)) || [name, name])[1];
const plainSet = (name) => name.replace(/^windows-/, "cp").replace(/^iso-8859/, "iso8859").replace(/-(jis|kr)$/, "_$1");

// Changes a setting, and checks the tables again.
const set = (section, name, value) => {
  put(section, name, value);
  return check();
};

// Says what a column is: a role, kept, or left out.
function role(heading, bare, is) {
  const others = { heading: words("heading").filter((one) => ![heading, bare].includes(one.slice(one.indexOf("=") + 1))) };
  for (const name of ["ignore", "keep"]) others[name] = words(name).filter((one) => one !== heading);
  if (is === "") others.ignore.push(heading);
  else if (is === "kept") others.keep.push(heading);
  else others.heading.push(is.startsWith("rank") ? `rank=${bare}` : `${is}=${heading}`);
  for (const [name, all] of Object.entries(others)) put("tables", name, all.length ? all : "");
  return check();
}

// Gives a table to the desk. What was said of the table before it is said no more.
export const give = tried(async (table, file) => {
  if (!file) return;
  if (file.size > MOST_MEGABYTES * 1024 * 1024) throw new Error(`${file.name} has more than ${MOST_MEGABYTES} MB, which is no table.`);
  state(`Reading ${file.name} …`);
  desk.given[table] = await upload(table, file);
  for (const name of ["sheet", "heading_row", "encoding", "delimiter"]) put(table, name, "");
  await check();
});

// Asks how the tables are read now, and shows it.
export const check = tried(async () => {
  const mine = (desk.asked += 1);
  if (!Object.keys(desk.given).length) return;
  const told = await call("check", { settings: desk.settings });
  if (mine !== desk.asked) return;
  for (const table of TABLES) if (told.looks[table]) draw(table, told);
  list(told.faults);
  const { count: some } = told.faults, count = several(some, "fault");
  const isHalf = !TABLES.every((table) => desk.given[table]);
  if (isHalf && some) state(`${count} so far. The other table is wanted too.`, "bad");
  else if (isHalf) state("Now give the other table, too.");
  else if (some) state(`${count}: mend the tables, or say how they are to be read.`, "bad");
  else state("No fault. The match can be made.", "good");
  desk.when(told.ready);
});

// Where a table is chosen or dropped.
function place(table) {
  const name = desk.given[table], id = `file-${table}`;
  const label = name ? `Another table of ${table}, in place of ${name}` : `The table of ${table}`;
  const input = made("input", { type: "file", accept: ".xlsx,.csv,.txt,.tsv", "aria-label": label, "data-key": id, id });
  input.addEventListener("change", () => give(table, input.files[0]));
  const drop = made("label", { class: "drop", for: id }, made("span", { class: "pick" }, name ? "Choose another" : "Choose a file"),
    name || `or drop the table of ${table} here`, input);
  drop.addEventListener("dragover", (event) => { event.preventDefault(); drop.classList.add("over"); });
  drop.addEventListener("dragleave", () => drop.classList.remove("over"));
  drop.addEventListener("drop", (event) => { event.preventDefault(); drop.classList.remove("over"); give(table, event.dataTransfer.files[0]); });
  return drop;
}

// The lists by which a table is read otherwise.
function fields(table, look) {
  const labelled = (text, field, kind = "") => made("label", { class: kind }, text, field);
  const listed = (name, options, value) => choice(options, value,
    { "data-key": `${name}-${table}`, onchange: (event) => set(table, name, event.target.value) });
  const said = part(table), found = [];
  if (look.sheet !== null || look.sheets.length) {
    const sheets = look.sheets.map((one) => [one, one]);
    found.push(labelled("Sheet", listed("sheet", look.sheet === null ? [["", "which one?"], ...sheets] : sheets, look.sheet || "")));
  } else {
    const sets = [["", said.encoding ? "find it" : look.heading_row ? `${look.title}, found` : "not known"], ...SETS];
    const mark = (MARKS.find(([one]) => one === look.delimiter) || ["", look.delimiter])[1];
    const marks = [["", said.delimiter ? "find it" : `${mark}, found`], ...MARKS];
    found.push(labelled("Character set", listed("encoding", sets, said.encoding || "")));
    found.push(labelled("Cells are parted by", listed("delimiter", marks, said.delimiter || "")));
  }
  const row = made("input", { type: "number", min: 1, value: look.heading_row || "", "data-key": `heading_row-${table}` });
  row.addEventListener("change", () => set(table, "heading_row", Number(row.value) || ""));
  found.push(labelled("Heading in row", row, "small"));
  return made("div", { class: "fields" }, ...found);
}

// How names read in each set that may be meant.
function samples(table, faults) {
  const fault = faults.find((one) => one.code === "file.set" && one.table === table);
  if (!fault) return [];
  const shown = fault.values.sets.map(([name, names]) => {
    const does = () => set(table, "encoding", plainSet(name));
    return made("button", { type: "button", class: "sample", onclick: does }, made("b", {}, nameOfSet(name)), made("br"), names.join(", "));
  });
  return [made("fieldset", {}, made("legend", {}, "In which of these are the names right?"), ...shown)];
}

// A note, which is folded where it is long.
const noted = ({ cause }) => {
  const isLong = cause.length > LONG;
  return made("li", {}, isLong ? made("details", {}, made("summary", {}, `${cause.slice(0, LONG / 2)} …`), cause) : cause);
};

function draw(table, told) {
  const look = told.looks[table], box = document.querySelector(`[data-table=${table}]`);
  const focus = document.activeElement && document.activeElement.dataset.key;
  box.classList.add("given");
  const said = told.how[table] || "", how = [...(said.match(/a row for each \w+/) || []), ...said.split("; ").slice(1)].join("; ");
  const notes = told.notes.filter((one) => one.table === table).map(noted);
  const parts = [box.firstElementChild, place(table), fields(table, look), made("p", { class: "soft" }, how), ...samples(table, told.faults.faults)];
  if (notes.length) parts.push(made("ul", { class: "notes" }, ...notes));
  if (look.headings.length) parts.push(preview(table, look, told.faults.faults));
  box.replaceChildren(...parts);
  const again = focus && box.querySelector(`[data-key="${focus}"]`);
  if (again) again.focus();
}

// The causes of faults by the cells of a table.
function marked(table, faults) {
  const found = new Map();
  for (const fault of faults) for (const cell of fault.cells) if (cell.table === table) {
    const key = `${cell.row}-${cell.column}`;
    found.set(key, [...(found.get(key) || []), fault.cause]);
  }
  return found;
}

// The heading with what each column is, then the first rows and those at fault.
function preview(table, look, faults) {
  const causes = marked(table, faults);
  const cell = (name, row, column, text, ...more) => {
    const why = causes.get(`${row}-${column}`) || [], bad = why.length > 0;
    const said = { class: bad && "bad", id: bad && `at-${table}-${row}-${column}`, tabindex: bad && -1, scope: name === "th" && "col" };
    return made(name, said, text, ...more, ...why.slice(0, MOST_CAUSES).map((one) => made("span", { class: "why" }, one)));
  };
  const beyond = [...causes.keys()].map((key) => key.split("-").map(Number)).filter(([row]) => row === look.heading_row).map(([, column]) => column);
  const width = Math.max(look.headings.length, ...look.rows.map(([, row]) => row.length), ...beyond);
  const columns = [...Array(width).keys()];
  const heads = columns.map((index) => {
    const heading = look.headings[index] || "", is = look.meanings.length ? look.meanings[index] || "" : "?";
    const numbered = is.match(/^rank (\d+)$/), also = is === "?" ? [["?", "not known"]] : [];
    const roles = [...also, ...ROLES[table].map(([key, text]) => (key === "rank" && numbered ? [is, `Rank ${numbered[1]}`] : [key, text]))];
    const list = () => choice(roles, is, { "aria-label": `Column ${letters(index + 1)}, ${heading}, is`, "data-key": `role-${table}-${index}`,
      onchange: (event) => role(heading, look.bare[index], event.target.value) });
    return cell("th", look.heading_row, index + 1, heading, ...(heading ? [list()] : []));
  });
  const rows = look.rows.map(([row, texts]) => made("tr", {}, made("th", { scope: "row" }, String(row)),
    ...columns.map((index) => cell("td", row, index + 1, texts[index] || ""))));
  const body = rows.length ? rows : [made("tr", {}, made("th", { scope: "row" }, "–"), made("td", { colspan: width }, "no row"))];
  return made("div", {}, made("p", { class: "soft" }, causes.size ? "The first rows, and those at fault:" : "The first rows:"),
    made("div", { class: "scroll", tabindex: 0, role: "region", "aria-label": `Rows of the table of ${table}` }, made("table", {},
      made("thead", {}, made("tr", {}, made("th", { scope: "col" }, String(look.heading_row)), ...heads)), made("tbody", {}, ...body))));
}

// What may mend a fault, as a button.
function remedy({ setting, value, table }) {
  const said = { heading_row: `The headings are in row ${value}`, encoding: `Read it as ${nameOfSet(String(value))}`, sheet: `Take the sheet ${value}`,
    expect: `${value} is right`, ignore: `Leave out ${value}`, allow_short: "Such rows are right", allow_gaps: "Take the ranks in their order",
    allow_alone: "Such rows are residents", allow_alike: "They are two people", allow_lost_letters: "The names are right" };
  if (setting === "heading") {
    const [is, ...word] = value.split("=");
    return button(`${word.join("=")} is the column ${is}`, () => set("tables", setting, [...words(setting), value]));
  }
  if (setting === "ignore") return button(said.ignore, () => set("tables", setting, [...words(setting), value]));
  return button(said[setting] || `${setting}: ${value}`, async () => {
    await set(table || "tables", setting, setting === "encoding" ? plainSet(value) : value);
    shown();
  });
}

function listed(fault) {
  const [first] = fault.cells, id = first && `at-${first.table}-${first.row}-${first.column}`;
  const text = first ? `${first.table} ${first.name}` : fault.row ? `${fault.table}, row ${fault.row}` : fault.table;
  const go = (event) => { event.preventDefault(); at(id).scrollIntoView({ block: "center", inline: "center" }); at(id).focus(); };
  const where = id && at(id) ? made("a", { href: `#${id}`, onclick: go }, text) : text;
  const more = fault.cells.length > 1 ? ` (also in ${several(fault.cells.length - 1, "more cell")})` : "";
  return made("li", {}, made("b", {}, where, ": "), `${fault.cause}${more}`, made("div", {}, ...fault.remedies.map(remedy)));
}

// The faults by their kinds.
export function list({ faults, kinds, count }) {
  at("faults").hidden = !count;
  const all = Object.entries(kinds).filter(([, [some]]) => some).map(([kind, [some, title]]) => {
    const items = faults.filter((one) => one.kind === kind);
    return [`${number(some)} ${title}`, made("div", {}, made("ol", { class: "faults" }, ...items.map(listed)),
      ...(some > items.length ? [made("p", { class: "soft" }, `and ${number(some - items.length)} more`)] : []))];
  });
  at("list").replaceChildren(...folded(all));
}

// Shows the settings that have fields of their own.
export function shown() {
  for (const one of document.querySelectorAll("[data-allow]")) one.checked = Boolean(part("tables")[one.dataset.allow]);
  for (const table of TABLES) at(`expect-${table}`).value = part(table).expect || "";
  at("language_column").value = part("tables").language_column || "";
  for (const name of SAID) at(name).value = part("match")[name] || { language: "en", order: "name" }[name] || "";
  for (const name of TEXTS) at(name).value = (part("match")[name] || "").split(" | ").join("\n");
  at("cut_offs").checked = Boolean(part("match").cut_offs);
}

const oneLine = (text) => text.split("\n").map((line) => line.trim().replace(/\s+/g, " ")).join(" | ").replace(/^[ |]+|[ |]+$/g, "");

// Begins with what the desk knows already.
export function begin(known) {
  Object.assign(desk, { settings: known.settings, given: known.tables });
  fill(at("language"), known.languages, "en");
  for (const table of TABLES) document.querySelector(`[data-table=${table}]`).append(place(table));
  for (const one of document.querySelectorAll("[data-allow]")) one.addEventListener("change", () => set("tables", one.dataset.allow, one.checked));
  for (const table of TABLES) at(`expect-${table}`).addEventListener("change", (event) => set(table, "expect", Number(event.target.value) || ""));
  at("language_column").addEventListener("change", (event) => set("tables", "language_column", event.target.value.trim()));
  for (const name of [...SAID, ...TEXTS]) at(name).addEventListener("change", (event) => put("match", name, oneLine(event.target.value)));
  at("cut_offs").addEventListener("change", (event) => put("match", "cut_offs", event.target.checked));
  shown();
}

export async function take(settings) {
  desk.settings = settings;
  shown();
  await check();
}
