// What people are told, and whether a look goes on.
import { $ } from "./dom.js";
import { fillRefusal } from "./refusal.js";

export function say(text, bad = false) {
  $("status").textContent = text;
  $("status").classList.toggle("bad", bad);
  if (bad && $("game").hidden) { $("refusal").hidden = false; fillRefusal({ told: text }, ""); }
}

export function guarded(work) {
  return async (...given) => {
    try { await work(...given); } catch (fault) { say(fault.message, true); }
  };
}

export function busy(on, text = "") {
  $("busy").hidden = !on;
  $("stop").disabled = !on;
  $("looked").textContent = text;
  if (!on) $("stop").textContent = "Stop";
}
