// What the page is at, and what is read of it.
const IDLE = /^(noop|no_op|wait)$/;

// What the page is at. `run` counts the positions shown: news for an earlier one is dropped. While one is `awaited`, the one that is
// drawn is old.
export const now = {
  games: [], game: null, turns: [], chosen: [], at: 0, position: null, pending: null, seats: {},
  auto: false, source: null, run: 0, awaited: false, looks: new Set(), role: "", tree: null, drawn: null, drawnAt: 0, before: null,
  flipped: false, told: null, hinted: false, hint: null, known: new Map(),
};

// What is done where a move, a turn or a node of the tree is pressed. The course of the match says it, so that what is drawn needs not know it.
export const does = { press: null, step: null, visit: null };

export const same = (one, other) => JSON.stringify(one) === JSON.stringify(other);
export const played = () => now.turns.slice(0, now.at);
export const turnsAhead = (depth) => `${depth} ${depth === 1 ? "turn" : "turns"}`;

// The moves of a turn that say something.
function telling(turn) {
  const found = turn.map((move, place) => ({ role: now.game.roles[place], move }));
  const active = found.filter(({ move }) => !IDLE.test(move));
  return active.length ? active : found;
}

export const short = (turn) => telling(turn).map(({ move }) => move).join(" / ");
export const long = (turn) => telling(turn).map(({ role, move }) => `${role} ${move}`).join(", ");

// The roles that have still to choose.
export function choosers() {
  return now.game.roles.filter((role) => (now.position.legal[role] || []).length > 1 && !(role in now.pending));
}
