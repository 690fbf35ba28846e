// The matches of an archive, where the page has one. Each is opened by its record.
import { ask } from "./asking.js";
import { $, make } from "./dom.js";
import { openSection } from "./opening.js";
import { takeRecord } from "./records.js";
import { guarded } from "./status.js";

async function openMatch(number) {
  $("record-text").value = (await ask("match", { match: number })).text;
  await takeRecord();
  if ($("record-fault").textContent) openSection("record", "record-text");
}

function line({ number, game, begun, seats, failed }) {
  const players = seats.map(({ role, player, goal }) => `${player} as ${role} ${goal === null ? "–" : goal}`).join(", ");
  const link = make("button", { type: "button" }, `${game.replace(/\.kif$/, "").replaceAll("_", " ")} ${number}`);
  link.addEventListener("click", guarded(() => openMatch(number)));
  const marks = failed ? `; ${failed} failed moves` : "";
  return make("li", {}, link, ` ${players}, ${new Date(begun).toLocaleString()}${marks}`);
}

guarded(async () => {
  const { matches } = await ask("matches");
  $("archive").hidden = !matches.length;
  $("matches").replaceChildren(...matches.map(line));
})();
