// Opening a game: one of the folder, rules of one's own, or what the address tells.
import { ask, leave } from "./asking.js";
import { $, make } from "./dom.js";
import { show } from "./match.js";
import { fillRefusal, scrollToFault } from "./refusal.js";
import { now } from "./state.js";
import { guarded, say } from "./status.js";
import { turnsOf } from "./turns.js";

export async function open(question, { turns = [], you = null, at = null, flip = false } = {}) {
  leave();
  $("game").hidden = true;
  $("opening").textContent = `Opening ${question.name ? question.name.replaceAll("_", " ") : "these rules"} …`;
  $("opening").hidden = false;
  const told = await ask("open", question).finally(() => { $("opening").hidden = true; });
  $("text").value = told.text;
  $("refusal").hidden = !told.refused;
  if (told.refused) {
    now.game = null;
    fillRefusal(told.refused, told.text);
    now.refused = told.refused;
    $("rules").hidden = false;
    if (told.refused.line) scrollToFault();
    return;
  }
  now.game = told;
  now.turns = turns;
  now.chosen = turns.map(() => true);
  now.at = at === null ? turns.length : at;
  now.drawn = null;
  now.flipped = flip;
  now.known = new Map();
  now.seats = Object.fromEntries(told.roles.map((role, place) =>
    [role, (you ? you.includes(role) : place === 0) ? "you" : "solver"]));
  $("games").value = now.games.some(({ name }) => name === told.name) ? told.name : "";
  $("title").textContent = told.name.replaceAll("_", " ");
  $("about").textContent = told.about;
  $("notes").textContent = told.notes.join("\n");
  $("notes").hidden = !told.notes.length;
  $("whole-too").hidden = !told.whole;
  document.title = `${told.name.replaceAll("_", " ")} – gdlsolve`;
  drawSeats();
  fillSubject();
  try {
    await show({ auto: !turns.length });
  } catch (fault) {
    if (!turns.length) throw fault;
    // Turns that the game does not have, as an old address tells them: the game is there without them.
    now.turns = [];
    now.chosen = [];
    now.at = 0;
    await show();
    say(`${fault.message} The game begins anew.`, true);
  }
}

export function drawSeats() {
  const rows = now.game.roles.map((role) => {
    const pick = make("select", { id: `seat-${role}`, "aria-label": `Who plays ${role}` },
      make("option", { value: "you" }, "you"), make("option", { value: "solver" }, "the solver"));
    pick.value = now.seats[role];
    pick.addEventListener("change", guarded(async () => {
      now.seats[role] = pick.value;
      await show({ auto: true });
    }));
    return make("div", { class: "seat" }, make("span", {}, role), pick);
  });
  $("seats").replaceChildren(make("legend", {}, "Who plays"), ...rows);
}

// Opens rules of one's own, and goes to what came of it.
export async function openRules(question) {
  await open(question);
  const shown = $("refusal").hidden ? $("play") : $("refusal");
  if ($("refusal").hidden) { $("rules").hidden = true; $("play").focus(); }
  shown.scrollIntoView({ block: "nearest" });
}

export function openText(whole) {
  return openRules({ text: $("text").value, whole });
}

function fillSubject() {
  $("subject").replaceChildren(make("option", { value: "" }, "who is to move"),
    ...now.game.roles.map((role) => make("option", { value: role }, role)));
}

export function openSection(id, first) {
  $(id).hidden = false;
  $(id).scrollIntoView({ block: "nearest" });
  $(first).focus();
}

// Opens what the address tells, else a game of the folder.
export async function openAddress() {
  const asked = new URLSearchParams(location.hash.slice(1));
  const names = now.games.map(({ name }) => name);
  const wanted = asked.get("game");
  const known = names.includes(wanted);
  const name = known ? wanted : names.includes("tic_tac_toe") ? "tic_tac_toe" : names[0];
  if (!name) return openSection("rules", "text");
  const turns = known ? turnsOf(asked.get("after") || "") : [];
  const you = known && asked.has("you") ? asked.get("you").split(",") : null;
  await open({ name }, { turns, you, flip: known && asked.get("flip") === "1" });
  if (wanted && !known) say(`There is no game ${wanted} in the folder. This is another one.`, true);
  return undefined;
}
