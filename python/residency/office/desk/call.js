// Asks the desk's server. The token is taken out of the address at once, so that no history and no picture of the screen has it.
import { at } from "./made.js";

const TOKEN = "desk-token";
if (/^#[\w-]{43}$/.test(location.hash)) {
  sessionStorage.setItem(TOKEN, location.hash.slice(1));
  history.replaceState(null, "", "/");
}
export const token = sessionStorage.getItem(TOKEN) || "";
export const forget = () => sessionStorage.removeItem(TOKEN);

// What is going on, by the word that the server tells.
const GOING_ON = { programmes: "Reading the programmes …", residents: "Reading the residents …", lists: "Comparing the lists …", match: "Making the match …",
  folder: "Writing the folder …", compare: "Comparing …", done: "Done." };
export const GONE = "The desk doesn’t answer: it was closed. Start it again.";

// What the server refused, with the faults of tables where these are why.
class DeskError extends Error {
  constructor(text, faults) {
    super(text);
    this.faults = faults;
  }
}

// The lines of an answer as they come.
async function* linesOf(answer) {
  const reader = answer.body.getReader(), decoder = new TextDecoder();
  let text = "";
  for (;;) {
    const { value, done } = await reader.read();
    text += value ? decoder.decode(value, { stream: true }) : "";
    const lines = text.split("\n");
    text = lines.pop();
    yield* lines;
    if (done) return;
  }
}

async function send(path, body, { headers = {}, tells = () => {}, signal } = {}) {
  const answer = await fetch(path, { method: "POST", body, signal, headers: { "X-Desk-Token": token, ...headers } });
  let last = {};
  for await (const line of linesOf(answer)) {
    last = JSON.parse(line);
    if ("progress" in last) tells(last.progress);
  }
  if ("answer" in last) return last.answer;
  throw new DeskError(last.error || GONE, last.faults);
}

export const call = (name, said = {}, more = {}) => send(`/call/${name}`, JSON.stringify(said), more);
export const upload = (table, file) => send(`/table/${table}`, file, { headers: { "X-Name": encodeURIComponent(file.name) } });
export const close = () => send("/close", "").catch(() => {});
// An answer that ends when the desk does.
export const alive = () => send("/alive", "");

export function state(text, kind = "") {
  at("state").textContent = text;
  at("state").className = kind;
}

export const why = (error) => (error.name === "AbortError" ? "Cancelled. Nothing was made." : error instanceof TypeError ? GONE : error.message);

// Does something that asks the server, and says why where it can't be done.
export const tried = (does) => async (...words) => {
  try {
    return await does(...words);
  } catch (error) {
    state(why(error), "bad");
    return undefined;
  }
};

let stopper = null;

// Asks for something that may take long: says what is going on, and lets it be cancelled. One at a time.
export async function work(name, said, tells) {
  if (stopper) throw new Error("One thing at a time: something is going on still.");
  stopper = new AbortController();
  at("cancel").hidden = false;
  document.body.setAttribute("aria-busy", "true");
  try {
    return await call(name, said, { signal: stopper.signal, tells: tells || ((what) => state(GOING_ON[what] || "Working …")) });
  } finally {
    stopper = null;
    at("cancel").hidden = true;
    document.body.removeAttribute("aria-busy");
  }
}

export const cancel = () => stopper && stopper.abort();
