// Matches that the browser keeps for this page: they are listed, opened again, and removed.
import { $, make } from "./dom.js";
import { open } from "./opening.js";
import { now, played, turnsAhead } from "./state.js";
import { guarded } from "./status.js";

const PLACE = "gdlsolve.matches";
const MOST = 50;
const REFUSED = "The browser keeps nothing for this page. A match can be saved as a record.";

const isMatch = (one) => typeof one?.name === "string" && typeof one.game === "string" && Array.isArray(one.turns)
  && one.turns.every((turn) => Array.isArray(turn) && turn.every((move) => typeof move === "string"));

// The matches that are kept, the newest first. What is none is passed over; nothing where the browser refuses.
function kept() {
  let text;
  try { text = localStorage.getItem(PLACE); } catch { return null; }
  try {
    const found = JSON.parse(text || "[]");
    return Array.isArray(found) ? found.filter(isMatch) : [];
  } catch { return []; }
}

// Keeps these matches, and tells whether the browser does.
function keepAll(matches) {
  try { localStorage.setItem(PLACE, JSON.stringify(matches)); } catch { return false; }
  return true;
}

function tell(text) {
  $("saves-told").textContent = text;
}

// The match that is open, as it is kept. The folder has no rules of one's own.
function match(name) {
  const { game, seats, flipped } = now;
  const own = now.games.some((each) => each.name === game.name) ? {} : { rules: game.text };
  const you = game.roles.filter((role) => seats[role] === "you");
  return { name, game: game.name, turns: played(), you, flipped, date: new Date().toISOString(), ...own };
}

// What a match is called that gets no name.
const nameless = () => (now.game ? `${now.game.name.replaceAll("_", " ")}, ${turnsAhead(now.at)}` : "");

export function keepMatch() {
  if (!now.game) return tell("No game is open.");
  const matches = kept();
  if (matches === null) return drawSaves();
  const name = $("save-name").value.trim() || nameless();
  const isKept = keepAll([match(name), ...matches].slice(0, MOST));
  if (isKept) $("save-name").value = "";
  drawSaves();
  return tell(isKept ? `${name} is kept.` : "The browser has no room for this match. It can be saved as a record.");
}

function remove(place) {
  const matches = kept() || [];
  const [gone] = matches.splice(place, 1);
  const isKept = keepAll(matches);
  drawSaves();
  tell(isKept && gone ? `${gone.name} is removed.` : REFUSED);
  ($("saves-list").querySelectorAll("button.away")[Math.min(place, matches.length - 1)] || $("keep")).focus();
}

async function openMatch({ game, rules, turns, you, flipped }) {
  const question = rules ? { text: rules, name: game.replace(/ \(a file\)$/, ""), whole: true } : { name: game };
  await open(question, { turns, you: Array.isArray(you) ? you : null, flip: Boolean(flipped) });
  if (now.game) { $("saves").hidden = true; $("play").focus(); }
}

export function drawSaves() {
  const matches = kept();
  tell(matches === null ? REFUSED : matches.length ? "" : "None yet.");
  $("keep").disabled = matches === null;
  $("save-name").placeholder = nameless();
  $("saves-list").replaceChildren(...(matches || []).map((one, place) => {
    const opened = make("button", { type: "button", "aria-label": `Open ${one.name}` }, one.name);
    opened.addEventListener("click", guarded(() => openMatch(one)));
    const away = make("button", { type: "button", class: "away", "aria-label": `Remove ${one.name}` }, "Remove");
    away.addEventListener("click", () => remove(place));
    const date = new Date(one.date);
    const when = Number.isNaN(date.getTime()) ? "" : `, ${date.toLocaleString()}`;
    const about = `${one.game.replaceAll("_", " ")}, ${turnsAhead(one.turns.length)}${when}`;
    return make("li", {}, opened, make("span", { class: "quiet" }, about), away);
  }));
}
