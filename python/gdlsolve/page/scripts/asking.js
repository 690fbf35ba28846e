// Questions to the server, and looks that go on there.
import { now } from "./state.js";
import { busy } from "./status.js";

export async function ask(what, question = {}) {
  let answer;
  try {
    answer = await fetch("/api/" + what, {
      method: "POST", headers: { "Content-Type": "application/json" }, body: JSON.stringify(question),
      // Also a page that goes gives up its looks.
      keepalive: what === "stop",
    });
  } catch {
    throw new Error("The server does not answer. Is it still running?");
  }
  const told = await answer.json();
  if (!answer.ok) throw new Error(told.error);
  return told;
}

// Begins a look, hands on each news of it, and gives the last; nothing where the page went on.
export async function look(what, question, news) {
  const run = now.run;
  const { look: number } = await ask(what, { game: now.game.id, ...question });
  if (run !== now.run) { ask("stop", { look: number }).catch(() => {}); return null; }
  now.looks.add(number);
  let told = { version: -1, ended: "" };
  try {
    while (!told.ended) {
      told = await ask("news", { look: number, seen: told.version });
      if (run !== now.run) return null;
      news(told);
    }
  } finally {
    now.looks.delete(number);
  }
  return told;
}

export function stopLooks() {
  for (const number of now.looks) ask("stop", { look: number }).catch(() => {});
}

// Leaves a position: its looks are given up, and their news dropped.
export function leave() {
  stopLooks();
  now.looks.clear();
  now.run += 1;
  now.awaited = false;
  busy(false);
}
