// The best moves with their lines, in the order of what they are worth.
import { $, make } from "./dom.js";
import { now, turnsAhead } from "./state.js";
import { drawPlies, worthText } from "./worth.js";

const MOST = 3;

// The moves in their order, once those that are not settled were looked at to one depth: those first that are sure of more, and of these
// those that can hope for more.
function ranked(moves) {
  const unsettled = moves.filter((choice) => choice.low < choice.high);
  if (unsettled.some(({ depth }) => !depth || depth !== unsettled[0].depth)) return [];
  return [...moves].sort((one, other) => other.low - one.low || other.high - one.high);
}

export function drawLines(told) {
  const found = told ? ranked(told.moves).slice(0, MOST) : [];
  $("lines").hidden = !found.length;
  if (!found.length) return;
  const many = told.moves.length > MOST ? `The first ${MOST} of ${told.moves.length} moves of ${now.role}` : `The moves of ${now.role}`;
  $("lines-told").textContent = `${many}, by what they are worth: looked ${turnsAhead(told.depth)} ahead in ${told.seconds.toFixed(1)} seconds.`;
  $("lines-list").replaceChildren(...found.map((choice) => {
    const [value, kind] = worthText(choice);
    const how = choice.low === choice.high ? `settled ${turnsAhead(choice.depth)} ahead` : kind;
    return make("li", {}, make("span", { class: "move" }, choice.move), " ", make("b", {}, value), " ",
      make("span", { class: "kind" }, how), make("div", { class: "line" }, ...drawPlies(choice.line)));
  }));
}
