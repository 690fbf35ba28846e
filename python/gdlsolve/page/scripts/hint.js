// A hint: a best move, marked in the table and on the board, and not played.
import { markCells } from "./board.js";
import { $ } from "./dom.js";
import { now, turnsAhead } from "./state.js";
import { bestOf } from "./worth.js";

// What is known of the best moves, in words. A best move is settled only where no other can come to more.
function hintText(best, moves) {
  if (!best.length) return "No best move is known yet.";
  const { move, low, high } = best[0];
  const open = moves.find((choice) => choice.low < choice.high);
  const isKnown = low === high && moves.every((other) => other.high <= low);
  const far = isKnown ? "" : ` as far as ${turnsAhead(open.depth)} ahead`;
  const worth = low === high ? String(low) : `${low} to ${high}`;
  const value = `${worth} to ${now.role}, ${isKnown ? "settled" : "not settled"}`;
  if (moves.length === 1) return `Hint: ${move} is the only move: ${value}.`;
  if (best.length === moves.length) return `Hint: no move is better than another${far}: each is worth ${value}.`;
  return `Hint: ${move} is ${best.length > 1 ? `one of ${best.length} best moves` : "best"}${far}: ${value}.`;
}

// Marks a best move, where a hint is asked for. Where all moves are best none is.
export function drawHint() {
  const moves = now.told?.moves || [];
  const best = now.hinted ? bestOf(moves) : [];
  const text = now.hinted ? hintText(best, moves) : "";
  const told = best.length && (best.length < moves.length || moves.length === 1) ? best[0].move : null;
  $("hint-told").hidden = !text;
  if ($("hint-told").textContent !== text) $("hint-told").textContent = text;
  for (const row of $("rows").children) row.classList.toggle("hint", row.dataset.move === told);
  markCells(told);
}
