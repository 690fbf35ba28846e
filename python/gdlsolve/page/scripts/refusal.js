// A refusal of rules, and the text in which its fault stands.
import { $, make } from "./dom.js";
import { now } from "./state.js";

export function fillRefusal(refused, text) {
  $("refusal-title").textContent = refused.code ? "These rules are refused" : "That did not work";
  const place = refused.line ? ` (line ${refused.line}, column ${refused.column})` : "";
  $("refusal-told").textContent = refused.told + place;
  $("refusal-cause").textContent = refused.cause || "";
  $("refusal-said").textContent = refused.explanation || "";
  $("whole").hidden = !refused.whole;
  $("refusal-more").hidden = !refused.explanation;
  $("refusal-more").open = Boolean(refused.explanation);
  const shown = $("refusal-text");
  shown.replaceChildren();
  shown.hidden = $("mend").hidden = !refused.line;
  if (!refused.line) return;
  const lines = text.split("\n");
  const from = Math.max(1, refused.line - 3);
  for (let number = from; number <= Math.min(lines.length, refused.line + 3); number += 1) {
    const line = lines[number - 1];
    const at = number === refused.line ? refused.column - 1 : -1;
    const parts = at < 0 ? [line] : [
      line.slice(0, at), make("span", { class: "hit" }, line.slice(at, at + 1) || " "), line.slice(at + 1),
    ];
    shown.append(make("span", { class: at < 0 ? "" : "at" },
      make("span", { class: "n", "aria-hidden": "true" }, String(number)), ...parts), "\n");
  }
}

// Scrolls the rules to the line of the fault, and gives where the fault begins in the text.
export function scrollToFault() {
  const { line, column } = now.refused;
  const area = $("text");
  const lineHeight = parseFloat(getComputedStyle(area).lineHeight);
  area.scrollTop = Math.max(0, (line - 6) * lineHeight);
  return area.value.split("\n").slice(0, line - 1).reduce((sum, each) => sum + each.length + 1, 0) + column - 1;
}

export function goToFault() {
  $("rules").hidden = false;
  const start = scrollToFault();
  $("text").focus({ preventScroll: true });
  $("text").setSelectionRange(start, start + 1);
  scrollToFault();
  tellPlace();
}

export function tellPlace() {
  const lines = $("text").value.slice(0, $("text").selectionStart).split("\n");
  $("place").textContent = `line ${lines.length}, column ${lines[lines.length - 1].length + 1}`;
}
