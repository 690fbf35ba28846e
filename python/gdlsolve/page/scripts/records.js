// Stepping through the record of a match.
import { ask } from "./asking.js";
import { $ } from "./dom.js";
import { show } from "./match.js";
import { drawSeats, open } from "./opening.js";
import { now } from "./state.js";

export async function takeRecord() {
  $("record-fault").textContent = "";
  try {
    const told = await ask("record", { text: $("record-text").value });
    const known = now.games.some(({ name }) => name === told.game);
    if (known && (!now.game || now.game.name !== told.game)) await open({ name: told.game });
    else if (!known && told.rules) await open({ text: told.rules, name: told.game || undefined, whole: true });
    if (!now.game) throw new Error("Open the game of this record first.");
    const end = await ask("position", { game: now.game.id, after: told.turns });
    if (end.refused) throw new Error(`The record does not fit ${now.game.name}: ${end.refused.told}. ${end.refused.cause}`);
    now.seats = Object.fromEntries(now.game.roles.map((role) => [role, "you"]));
    drawSeats();
    now.turns = told.turns;
    now.chosen = told.turns.map(() => true);
    now.at = 0;
    $("record").hidden = true;
    await show();
    $("forward").focus();
  } catch (fault) {
    $("record-fault").textContent = fault.message;
  }
}
