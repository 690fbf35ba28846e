// The course of a match: a position is shown, somebody chooses, and the next one is.
import { ask, leave, look } from "./asking.js";
import { drawBoards, drawFacts, drawGoals } from "./board.js";
import { $ } from "./dom.js";
import { drawGraph, noteEnd } from "./graph.js";
import { drawMoves, seconds, worth } from "./moves.js";
import { choosers, does, long, now, played, turnsAhead } from "./state.js";
import { busy, guarded, say } from "./status.js";
import { drawTree } from "./tree.js";
import { drawTurns, remember } from "./turns.js";

export async function show({ auto = false } = {}) {
  leave();
  const run = now.run;
  now.awaited = true;
  let told;
  try {
    told = await ask("position", { game: now.game.id, after: played() });
  } finally {
    if (run === now.run) now.awaited = false;
  }
  if (run !== now.run) return;
  if (told.refused) {
    now.turns = now.turns.slice(0, now.at - 1);
    now.at = now.turns.length;
    throw new Error(`That turn cannot be played: ${told.refused.told}.`);
  }
  now.position = told;
  // What the last turn has changed is marked, where the one before it was shown.
  now.before = now.at === now.drawnAt + 1 ? now.drawn : null;
  now.drawn = told.boards;
  now.drawnAt = now.at;
  // A role may have any name, also one that each object knows, as `constructor`.
  now.pending = Object.create(null);
  now.source = null;
  noteEnd(played(), told);
  remember();
  drawAll();
  $("game").hidden = false;
  drawGraph();
  now.auto = auto;
  onward();
}

// Goes on from a position as drawn; nobody waits for the looks that this may take.
function onward() {
  guarded(() => go(now.auto))();
}

function drawAll() {
  drawMoves();
  drawGoals();
  drawBoards();
  drawFacts();
  drawTurns();
  drawTree(null);
  $("first").disabled = $("back").disabled = $("undo").disabled = now.at === 0;
  $("forward").disabled = $("last").disabled = now.at === now.turns.length;
}

function before() {
  return now.at ? `Turn ${now.at}: ${long(now.turns[now.at - 1])}. ` : "";
}

async function go(auto) {
  const { state, goals } = now.position;
  if (state === "ended") {
    const each = Object.entries(goals).map(([role, goal]) => `${role} ${goal}`).join(", ");
    return say(`${before()}The game has ended: ${each}.`);
  }
  if (state === "stuck") return say(`${before()}Nobody can go on: some role has no legal move.`);
  const left = choosers();
  const mine = left.filter((role) => now.seats[role] === "you");
  if (left.length && !mine.length && auto) return letSolver(left);
  if (!left.length && Object.keys(now.pending).length) return play();
  if (mine.length) say(`${before()}Your move, ${mine[0]}.`);
  else if (left.length) say(`${before()}It is ${left[0]}'s move, which the solver plays. Press a move, or go on from the last turn.`);
  else say(`${before()}Nobody has a choice: press the move to go on.`);
  return worth();
}

// The solver chooses for each of these roles, which do not know of each other's choice.
async function letSolver(roles) {
  const run = now.run;
  for (const role of roles) {
    say(`${before()}${role}, the solver, is thinking.`);
    busy(true, "Thinking.");
    $("stop").textContent = "Move now";
    const told = await look("choose", { after: played(), role, seconds: seconds() || 60 }, (news) => {
      $("looked").textContent = news.depth ? `Thinking, ${turnsAhead(news.depth)} ahead.` : "Thinking.";
    });
    if (told === null || run !== now.run) return;
    busy(false);
    if (told.ended === "failed") throw new Error(told.why);
    const legal = now.position.legal[role];
    // One that has to move before it has read the rules knows of none.
    const move = told.best ? told.best.move : legal[Math.floor(Math.random() * legal.length)];
    if (!legal.includes(move)) throw new Error("The solver has no move.");
    now.pending[role] = move;
  }
  await play();
}

async function play() {
  const turn = now.game.roles.map((role) => now.pending[role] ?? now.position.legal[role][0]);
  const mine = now.game.roles.some((role) => role in now.pending && now.seats[role] === "you");
  now.turns = [...played(), turn];
  now.chosen = [...now.chosen.slice(0, now.at), mine];
  now.at += 1;
  await show({ auto: true });
}

async function press(role, move) {
  if (now.awaited) return;
  now.pending[role] = move;
  now.source = null;
  const left = choosers();
  const mine = left.filter((each) => now.seats[each] === "you");
  leave();
  if (mine.length) {
    drawMoves();
    drawBoards();
    say(`${role} has chosen ${move}. Your move, ${mine[0]}.`);
    guarded(worth)();
  } else if (left.length) await letSolver(left);
  else await play();
}

export async function step(at) {
  const focused = document.activeElement?.id;
  now.at = Math.max(0, Math.min(at, now.turns.length));
  await show();
  if (focused && $(focused) && !$(focused).disabled) $(focused).focus();
}

export async function takeBack() {
  let at = now.at;
  do at -= 1; while (at > 0 && now.chosen[at] === false);
  now.at = Math.max(0, at);
  now.turns = played();
  now.chosen = now.chosen.slice(0, now.at);
  await show();
}

async function visit(one) {
  now.turns = [...played(), ...one.path];
  now.chosen = [...now.chosen.slice(0, now.at), ...one.path.map(() => true)];
  now.at = now.turns.length;
  await show().catch((fault) => say(fault.message, true));
}

export async function again() {
  now.turns = [];
  now.chosen = [];
  now.at = 0;
  await show({ auto: true });
}

// Looks anew at the position that is shown, as another role or another time is asked for.
export function lookAgain() {
  if (now.awaited) return;
  leave();
  if (!now.game) return;
  drawMoves();
  drawBoards();
  drawTree(null);
  drawGraph();
  onward();
}

Object.assign(does, { press, step, visit });
