// The desk's page. It decides nothing of tables or matches: it sends what is given, and shows what it is answered.
import { at, made, sure } from "./made.js";
import { alive, cancel, close, forget, state, token, tried, why } from "./call.js";
import { begin as beginTables, check } from "./tables.js";
import { begin as beginFolders, renew, unsaved } from "./folders.js";
import { begin as beginPeople } from "./people.js";

let isOver = false;

// What is left of the page when the desk is closed.
function over(text) {
  isOver = true;
  document.querySelector("main").replaceChildren(made("p", { id: "state", role: "status" }, text));
  for (const one of document.querySelectorAll("header button, nav")) one.remove();
}

async function end() {
  if (unsaved() && !(await sure("A folder isn’t saved, and goes with the desk. Close the desk?", "Close without saving"))) return;
  await close();
  forget();
  over("The desk is closed. You may close this window.");
}

async function begin() {
  if (!token) return state("This window doesn’t know the desk’s token. Open the whole address that the desk printed.", "bad");
  beginFolders();
  beginPeople();
  beginTables(await renew());
  at("close").addEventListener("click", end);
  at("cancel").addEventListener("click", cancel);
  for (const what of ["dragover", "drop"]) window.addEventListener(what, (event) => event.preventDefault());
  window.addEventListener("beforeunload", (event) => { if (!isOver && unsaved()) event.preventDefault(); });
  state("Give the two tables, of programmes and of residents.");
  alive().catch((error) => isOver || over(why(error)));
  return check();
}

tried(begin)();
