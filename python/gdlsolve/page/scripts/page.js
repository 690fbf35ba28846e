// The page: a game, its board, its moves with what they are worth, and matches against the solver. This is where it begins.
import { ask, leave, stopLooks } from "./asking.js";
import { drawBoards, walkBoard } from "./board.js";
import { $, make } from "./dom.js";
import { dragEnds, dragged, dropped, takeFile } from "./files.js";
import { drawGraph } from "./graph.js";
import { again, lookAgain, step, takeBack } from "./match.js";
import { hint } from "./moves.js";
import { open, openAddress, openSection, openText } from "./opening.js";
import { takeRecord } from "./records.js";
import { goToFault, tellPlace } from "./refusal.js";
import { drawSaves, keepMatch } from "./saves.js";
import { now } from "./state.js";
import { guarded } from "./status.js";
import { walkTree } from "./tree.js";
import { remember, save } from "./turns.js";

function key(event) {
  if (event.key === "Escape") { stopLooks(); return; }
  if (/^(INPUT|TEXTAREA|SELECT)$/.test(event.target.tagName) || event.ctrlKey || event.altKey || event.metaKey) return;
  const id = { ",": "back", ".": "forward", u: "undo", h: "hint", f: "flip" }[event.key];
  if (id && !$("game").hidden && !$(id).disabled && !$(id).hidden) { event.preventDefault(); $(id).click(); }
}

function flip() {
  now.flipped = !now.flipped;
  drawBoards();
  remember();
}

function wire() {
  const on = (id, work, event = "click") => $(id).addEventListener(event, guarded(work));
  on("games", () => $("games").value && open({ name: $("games").value }), "change");
  on("write", () => openSection("rules", "text"));
  on("load", () => openSection("record", "record-text"));
  on("saved", () => { drawSaves(); openSection("saves", "save-name"); });
  on("close-saves", () => { $("saves").hidden = true; $("saved").focus(); });
  on("keep", keepMatch);
  addEventListener("storage", () => { if (!$("saves").hidden) drawSaves(); });
  on("close-rules", () => { $("rules").hidden = true; $("write").focus(); });
  on("close-record", () => { $("record").hidden = true; $("load").focus(); });
  on("open", () => openText(false));
  on("whole", () => openText(true));
  on("whole-too", () => openText(true));
  on("mend", goToFault);
  on("text", tellPlace, "keyup");
  on("text", tellPlace, "click");
  on("take", takeRecord);
  on("choose-file", () => $("file").click());
  on("file", async () => {
    const [file] = $("file").files;
    if (file) { $("record-text").value = await file.text(); await takeRecord(); }
  }, "change");
  on("open-file", () => $("kif").click());
  on("kif", async () => {
    const [file] = $("kif").files;
    // The same file may be chosen again, once it was mended.
    try { if (file) await takeFile(file); } finally { $("kif").value = ""; }
  }, "change");
  document.addEventListener("dragover", dragged);
  document.addEventListener("dragleave", dragEnds);
  document.addEventListener("drop", guarded(dropped));
  on("first", () => step(0));
  on("back", () => step(now.at - 1));
  on("forward", () => step(now.at + 1));
  on("last", () => step(now.turns.length));
  on("undo", takeBack);
  on("again", again);
  on("hint", hint);
  on("flip", flip);
  on("stop", stopLooks);
  on("save", save);
  for (const id of ["subject", "seconds", "tell"]) {
    on(id, lookAgain, "change");
  }
  $("boards").addEventListener("keydown", walkBoard);
  $("tree").addEventListener("keydown", walkTree);
  document.addEventListener("keydown", key);
  addEventListener("pagehide", leave);
  addEventListener("resize", () => !$("game").hidden && drawGraph());
  // Another address that is put in where the page is open changes this part alone.
  addEventListener("hashchange", guarded(openAddress));
}

async function begin() {
  wire();
  const { games, version } = await ask("games");
  now.games = games;
  document.querySelector("h1").title = `gdlsolve ${version}`;
  $("games").replaceChildren(make("option", { value: "" }, games.length ? "choose a game" : "no games in the folder"),
    ...games.map(({ name }) => make("option", { value: name }, name.replaceAll("_", " "))));
  await openAddress();
}

guarded(begin)();
