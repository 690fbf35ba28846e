// What a match is worth to a role, turn by turn: a band of bounds, and a line where they are settled.
import { $, drawing, make } from "./dom.js";
import { does, now } from "./state.js";
import { guarded } from "./status.js";
import { narrower, worthText } from "./worth.js";

const [LEFT, RIGHT, TOP, HIGH, BELOW] = [34, 12, 8, 96, 20];
const MOST_TICKS = 12;

const keyOf = (role, turns) => JSON.stringify([role, turns]);

function note(role, turns, { low, high, depth }) {
  const key = keyOf(role, turns);
  now.known.set(key, narrower(now.known.get(key), { low, high, depth }));
}

// Notes what a look tells of a position: the best of what the moves are worth. Where nobody else has a choice, it tells of the turn behind
// each move too.
export function noteWorth(role, turns, moves) {
  if (!moves.length || moves.some(({ depth }) => !depth)) return;
  const most = (bound) => Math.max(...moves.map((choice) => choice[bound]));
  note(role, turns, { low: most("low"), high: most("high"), depth: most("depth") });
  const { legal } = now.position;
  if (now.game.roles.some((each) => each !== role && (legal[each] || []).length > 1)) return;
  for (const choice of moves) {
    if (choice.low === choice.high || choice.depth > 1) note(role, [...turns, choice.line[0]], { ...choice, depth: Math.max(choice.depth - 1, 1) });
  }
}

export function noteEnd(turns, { state, goals }) {
  if (state !== "ended") return;
  for (const [role, goal] of Object.entries(goals)) note(role, turns, { low: goal, high: goal, depth: 1 });
}

// The role that the graph is about: it stays the same while others are to move.
function roleOf() {
  return $("subject").value || now.game.roles.find((role) => now.seats[role] === "you") || now.game.roles[0];
}

// The line between two turns of which the worth is known; it is broken where turns between them are not.
function between(one, other, x, y) {
  const kind = other.at > one.at + 1 ? " gap" : "";
  const [left, right] = [x(one.at), x(other.at)];
  if (one.low === one.high && other.low === other.high) {
    return drawing("line", { class: `settled${kind}`, x1: left, x2: right, y1: y(one.low), y2: y(other.low) });
  }
  const points = [[left, y(one.high)], [right, y(other.high)], [right, y(other.low)], [left, y(one.low)]];
  return drawing("polygon", { class: `band${kind}`, points: points.map((each) => each.join(",")).join(" ") });
}

export function drawGraph() {
  const role = roleOf();
  const last = now.turns.length;
  const found = [];
  for (let at = 0; at <= last; at += 1) {
    const known = now.known.get(keyOf(role, now.turns.slice(0, at)));
    if (known) found.push({ at, ...known });
  }
  $("graph").hidden = !last || !found.length;
  if ($("graph").hidden) return;
  const width = Math.max($("graph").clientWidth, 240);
  const step = (width - LEFT - RIGHT) / last;
  const x = (at) => LEFT + at * step;
  const y = (value) => TOP + (HIGH * (100 - value)) / 100;
  const named = (at) => (at ? `turn ${at}` : "start");
  const worthOf = (one) => worthText(one).join(" ");
  const lines = [0, 50, 100].flatMap((value) => [
    drawing("line", { class: "grid", x1: LEFT, x2: width - RIGHT, y1: y(value), y2: y(value) }),
    drawing("text", { x: LEFT - 6, y: y(value) + 4, "text-anchor": "end" }, String(value)),
  ]);
  const every = Math.ceil(last / MOST_TICKS);
  const ticks = [...Array(last + 1).keys()].filter((at) => at % every === 0)
    .map((at) => drawing("text", { x: x(at), y: TOP + HIGH + BELOW - 4, "text-anchor": "middle" }, String(at)));
  const marks = found.map((one) => (one.low === one.high ? drawing("circle", { class: "point", cx: x(one.at), cy: y(one.low), r: 4 })
    : drawing("line", { class: "bounds", x1: x(one.at), x2: x(one.at), y1: y(one.high), y2: y(one.low) })));
  const places = [...Array(last + 1).keys()].map((at) => {
    const known = found.find((one) => one.at === at);
    const place = drawing("rect", { class: "place", x: x(at) - step / 2, y: 0, width: step, height: TOP + HIGH + BELOW },
      drawing("title", {}, `${named(at)}: ${known ? worthOf(known) : "not looked at"}`));
    place.addEventListener("click", guarded(() => does.step(at)));
    return place;
  });
  const text = `What the match is worth to ${role}: ${found.map((one) => `${named(one.at)} ${worthOf(one)}`).join(", ")}`;
  $("graph").replaceChildren(make("p", { class: "quiet" }, `Worth to ${role}, turn by turn`),
    drawing("svg", { role: "img", "aria-label": text, width, height: TOP + HIGH + BELOW, viewBox: `0 0 ${width} ${TOP + HIGH + BELOW}` },
      drawing("title", {}, text), ...lines, ...ticks,
      drawing("line", { class: "here", x1: x(now.at), x2: x(now.at), y1: TOP, y2: TOP + HIGH }),
      ...found.slice(1).map((one, place) => between(found[place], one, x, y)), ...marks, ...places));
}
