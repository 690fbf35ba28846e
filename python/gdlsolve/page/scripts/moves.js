// The list of moves, and the looks at what they are worth.
import { look } from "./asking.js";
import { $, make } from "./dom.js";
import { drawGraph, noteWorth } from "./graph.js";
import { drawHint } from "./hint.js";
import { drawLines } from "./lines.js";
import { choosers, does, now, played, turnsAhead } from "./state.js";
import { busy, guarded } from "./status.js";
import { drawTree } from "./tree.js";
import { bar, bestOf, drawPlies, worthText } from "./worth.js";

const ENDS = { time: "The time is over", stopped: "Stopped", depth: "The greatest depth is reached" };
export const seconds = () => ($("seconds").value ? Number($("seconds").value) : null);

// Whose moves are told: the role that is asked for, else one of yours that has to choose, else any.
function subject() {
  const left = choosers();
  return $("subject").value || left.find((role) => now.seats[role] === "you") || left[0]
    || now.game.roles.find((role) => (now.position.legal[role] || []).length) || now.game.roles[0];
}

export function drawMoves() {
  now.role = subject();
  now.told = null;
  now.hinted = false;
  now.hint = null;
  const legal = now.position.state === "open" ? now.position.legal[now.role] || [] : [];
  $("moves-title").textContent = legal.length ? `Moves of ${now.role}` : "Moves";
  $("table").hidden = !legal.length;
  $("legend").hidden = !legal.length || !$("tell").checked;
  $("rows").replaceChildren(...legal.map((move) => {
    const button = make("button", { type: "button", class: "move" }, move);
    button.addEventListener("click", guarded(() => does.press(now.role, move)));
    const row = make("tr", {}, make("td", {}, button), make("td", { class: "worth" }), make("td", { class: "line" }));
    row.dataset.move = move;
    return row;
  }));
  $("hint").disabled = !legal.length;
  $("hint-told").hidden = true;
  drawLines(null);
}

export function drawWorth(told) {
  const best = bestOf(told.moves);
  const rows = new Map([...$("rows").children].map((each) => [each.dataset.move, each]));
  for (const choice of told.moves) {
    const row = rows.get(choice.move);
    if (!row) continue;
    const [value, kind] = worthText(choice);
    const isBest = best.includes(choice) && best.length < told.moves.length;
    row.classList.toggle("best", isBest);
    row.children[1].replaceChildren(...(choice.depth ? [bar(choice.low, choice.high)] : []),
      make("b", {}, value), " ", make("span", { class: "kind" }, isBest ? `${kind}, best` : kind));
    row.children[2].replaceChildren(...(choice.depth ? drawPlies(choice.line) : []));
  }
  drawLines(told);
  if (best.length) drawTree(best[0]);
}

// Looks at what the moves are worth, and tells it where that is wanted; else for a hint alone.
export async function worth() {
  const isTold = $("tell").checked;
  if (!(isTold || now.hinted) || now.position.state !== "open") return;
  busy(true, "Looking.");
  const told = await look("values", { after: played(), role: now.role, seconds: seconds() }, (news) => {
    $("looked").textContent = news.depth ? `Looking, ${turnsAhead(news.depth)} ahead.` : "Looking.";
    now.told = news;
    if (isTold) {
      drawWorth(news);
      noteWorth(now.role, played(), news.moves);
      drawGraph();
    }
    drawHint();
  });
  if (told === null) return;
  const deep = told.depth ? `looked ${turnsAhead(told.depth)} ahead` : "nothing is known yet";
  const how = told.ended === "settled" ? "All values are settled" : ENDS[told.ended];
  busy(false, told.ended === "failed" ? told.why : `${how}: ${deep}.`);
  $("heard").textContent = $("looked").textContent;
}

// Marks a best move, which is looked for where that was not done. It is not played.
export async function hint() {
  if (now.awaited || now.position.state !== "open") return;
  now.hinted = true;
  drawHint();
  if (!now.told && !now.looks.size) await worth();
}
