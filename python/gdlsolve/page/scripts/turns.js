// The turns that were played, their record, and the address that tells them.
import { $, make } from "./dom.js";
import { does, now, played, short } from "./state.js";
import { guarded } from "./status.js";

export function drawTurns() {
  $("no-turns").hidden = now.turns.length > 0;
  const items = [["start", 0], ...now.turns.map((turn, place) => [short(turn), place + 1])];
  $("list").hidden = !now.turns.length;
  $("list").replaceChildren(...items.map(([text, at]) => {
    const button = make("button", { type: "button" }, at ? make("span", { class: "no" }, String(at)) : "",
      make("span", { class: at ? "move" : "" }, text));
    if (at === now.at) button.setAttribute("aria-current", "step");
    button.addEventListener("click", guarded(() => does.step(at)));
    return make("li", {}, button);
  }));
}

export function save() {
  const { state, goals } = now.position;
  const told = {
    game: now.game.name, roles: now.game.roles, moves: now.turns,
    isCompleted: state === "ended" && now.at === now.turns.length,
  };
  if (told.isCompleted) told.goalValues = now.game.roles.map((role) => goals[role]);
  // The folder has no such game, and the page itself forgets it.
  if (!now.games.some(({ name }) => name === told.game)) told.rules = now.game.text;
  const blob = new Blob([JSON.stringify(told, null, 1)], { type: "application/json" });
  $("save").href = URL.createObjectURL(blob);
}

// The address tells the game, the turns and the seats, so that a position can be kept and sent.
export function remember() {
  if (!now.games.some(({ name }) => name === now.game.name)) return history.replaceState(null, "", "#");
  const you = now.game.roles.filter((role) => now.seats[role] === "you").join(",");
  const after = played().map((turn) => `(${turn.join(" ")})`).join(" ");
  return history.replaceState(null, "", "#" + new URLSearchParams({ game: now.game.name, you, after, ...(now.flipped ? { flip: "1" } : {}) }));
}

// The turns of a history's text, which the address tells.
export function turnsOf(text) {
  const turns = [];
  let depth = 0;
  let term = "";
  for (const token of text.match(/[()]|[^\s()]+/g) || []) {
    if (token === ")") depth -= 1;
    if (depth === 0 && token === "(") turns.push([]);
    else if (depth > 0) {
      term += term && !term.endsWith("(") && token !== ")" ? ` ${token}` : token;
      if (depth === 1 && token !== "(") { turns[turns.length - 1].push(term); term = ""; }
    }
    if (token === "(") depth += 1;
  }
  return turns;
}
