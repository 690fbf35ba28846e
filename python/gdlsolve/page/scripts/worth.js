// What moves are worth: as texts and bars, and which are best.
import { make } from "./dom.js";
import { short, turnsAhead } from "./state.js";

const MOST_SHOWN = 12;

export function bar(low, high) {
  const fill = make("i");
  fill.style.left = `${Math.min(low, 97)}%`;
  fill.style.width = `${Math.max(high - low, 3)}%`;
  const made = make("span", { class: low === high ? "bar settled" : "bar", "aria-hidden": "true" }, fill);
  return made;
}

export function drawPlies(line) {
  const shown = line.slice(0, MOST_SHOWN).flatMap((turn, place) =>
    [make("span", { class: "ply" }, `${place + 1} `, make("b", {}, short(turn))), " "]);
  return line.length > MOST_SHOWN ? [...shown, `and ${line.length - MOST_SHOWN} more`] : shown;
}

export function worthText({ low, high, depth }) {
  if (!depth) return ["…", ""];
  return low === high ? [String(low), "settled"] : [`${low} to ${high}`, `within ${turnsAhead(depth)}`];
}

// The choices that are best. Where all that are not settled were looked at to one depth, those that are sure of as much as any, and of these
// those that can hope for most. Else those alone that are sure of as much as any other can hope for.
export function bestOf(moves) {
  const unsettled = moves.filter((choice) => choice.low < choice.high);
  if (unsettled.some(({ depth }) => !depth || depth !== unsettled[0].depth)) {
    return moves.filter((choice) => moves.every((other) => other.high <= choice.low));
  }
  const low = Math.max(...moves.map((choice) => choice.low));
  const sure = moves.filter((choice) => choice.low === low);
  const high = Math.max(...sure.map((choice) => choice.high));
  return sure.filter((choice) => choice.high === high);
}

// Which of two looks at one turn knows more.
export function narrower(one, other) {
  if (!one || !one.depth) return other;
  const gap = (choice) => choice.high - choice.low;
  return gap(other) < gap(one) || (gap(other) === gap(one) && other.depth > one.depth) ? other : one;
}
