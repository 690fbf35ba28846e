// The board, the goals and the facts of a position.
import { $, make } from "./dom.js";
import { does, now, same } from "./state.js";
import { guarded } from "./status.js";

function pressable() {
  const found = new Map();
  const role = now.role;
  if (now.position.state !== "open" || role in now.pending) return found;
  const add = (cell, action) => { const key = cell.join(" "); if (!found.has(key)) found.set(key, action); };
  for (const [move, { press: cells, any }] of Object.entries(now.position.spots[role] || {})) {
    if (any) cells.forEach((cell) => add(cell, { move, text: `play ${move}` }));
    else if (cells.length === 1) add(cells[0], { move, text: `play ${move}` });
    else if (now.source === null) add(cells[0], { source: cells[0].join(" "), text: "choose where to go from here" });
    else if (cells[0].join(" ") === now.source) add(cells[1], { move, text: `play ${move}`, hit: true });
  }
  if (now.source !== null) found.set(now.source, { source: now.source, text: "give this choice up" });
  return found;
}

function drawPiece(piece) {
  if (piece.colour === "tile") return make("span", { class: "piece tile" }, piece.mark);
  if (piece.colour) return make("span", { class: `disc ${piece.colour}` }, piece.mark);
  const size = piece.mark.length > 2 ? "piece long" : "piece";
  return make("span", { class: `${size} side${piece.side}` }, piece.mark);
}

function drawCell(grid, row, column, actions) {
  const pieces = grid.cells[row][column] || [];
  const key = `${grid.columns[column]} ${grid.rows[row]}`;
  const names = pieces.map((piece) => piece.name).join(" and ") || "empty";
  const label = `column ${grid.columns[column]}, row ${grid.rows[row]}: ${names}`;
  const cell = make("td", { class: grid.checkered && (row + column) % 2 === (grid.phase ?? 1) ? "shade" : "" });
  cell.dataset.at = key;
  cell.classList.toggle("several", pieces.length > 1);
  const action = actions.get(key);
  const drawn = pieces.map(drawPiece);
  if (!action && !grid.cells[row][column]) {
    cell.className = "void";
    return cell;
  }
  if (!action) {
    drawn.forEach((piece) => piece.setAttribute("aria-hidden", "true"));
    cell.append(...drawn, make("span", { class: "unseen" }, names));
    return cell;
  }
  const button = make("button", { type: "button", "aria-label": `${label}; ${action.text}`, title: action.text }, ...drawn);
  button.dataset.cell = `${row} ${column}`;
  button.classList.toggle("full", pieces.length > 0);
  button.classList.toggle("hit", Boolean(action.hit));
  if (action.source === now.source && now.source !== null) button.classList.add("chosen");
  button.addEventListener("click", guarded(async () => {
    if (action.move) return does.press(now.role, action.move);
    now.source = now.source === action.source ? null : action.source;
    drawBoards();
    document.querySelector(`[data-cell="${button.dataset.cell}"]`)?.focus();
    return undefined;
  }));
  cell.append(button);
  return cell;
}

// The places of a line of the board, in the order in which they are drawn.
function drawnOrder(line) {
  const places = [...line.keys()];
  return now.flipped ? places.reverse() : places;
}

// Marks the cells of a move, or none.
export function markCells(move) {
  now.hint = move;
  const cells = new Set((move === null ? [] : now.position.spots[now.role]?.[move]?.press || []).map((cell) => cell.join(" ")));
  for (const cell of $("boards").querySelectorAll("table:first-child td[data-at]")) cell.classList.toggle("hinted", cells.has(cell.dataset.at));
}

export function drawBoards() {
  const held = document.activeElement?.dataset?.cell;
  const tables = now.position.boards.map((grid, place) => {
    const actions = place === 0 ? pressable() : new Map();
    const size = grid.columns.length > 12 ? "board lots" : "board";
    const head = make("tr", {}, make("td", { hidden: true }), ...[]);
    const [wide, high] = grid.inner;
    const [rows, columns] = [drawnOrder(grid.rows), drawnOrder(grid.columns)];
    const body = rows.map((down, fromTop) => make("tr", {}, make("th", { scope: "row" }, grid.rows[down]),
      ...columns.map((across, fromLeft) => {
        const cell = drawCell(grid, down, across, actions);
        cell.classList.toggle("cut-left", wide > 0 && fromLeft > 0 && fromLeft % wide === 0);
        cell.classList.toggle("cut-top", high > 0 && fromTop > 0 && fromTop % high === 0);
        const was = now.before?.[place]?.cells?.[down]?.[across];
        if (was && !same(was, grid.cells[down][across])) cell.classList.add("fresh");
        return cell;
      })));
    head.replaceChildren(make("th", {}, make("span", { class: "unseen" }, "row")),
      ...columns.map((across) => make("th", { scope: "col" }, grid.columns[across])));
    const table = make("table", { class: size }, make("caption", { class: "unseen" }, `The board, by ${grid.relation}`),
      make("tbody", {}, ...body, head));
    table.style.setProperty("--columns", String(columns.length));
    table.style.setProperty("--rows", String(rows.length));
    return table;
  });
  $("boards").replaceChildren(...tables);
  $("flip").hidden = !tables.length;
  $("flip").setAttribute("aria-pressed", String(now.flipped));
  markCells(now.hint);
  if (held) document.querySelector(`[data-cell="${held}"]`)?.focus();
}

export function walkBoard(event) {
  const step = { ArrowUp: [-1, 0], ArrowDown: [1, 0], ArrowLeft: [0, -1], ArrowRight: [0, 1] }[event.key];
  const from = event.target.dataset?.cell;
  if (!step || !from) return;
  event.preventDefault();
  let [row, column] = from.split(" ").map(Number);
  const way = now.flipped ? -1 : 1;
  for (let tries = 0; tries < 24; tries += 1) {
    row += way * step[0];
    column += way * step[1];
    const next = document.querySelector(`[data-cell="${row} ${column}"]`);
    if (next) { next.focus(); return; }
  }
}

export function drawGoals() {
  const goals = Object.entries(now.position.goals);
  const top = Math.max(...goals.map(([, goal]) => goal));
  $("goals").hidden = !goals.length;
  $("goals").replaceChildren(...goals.map(([role, goal]) =>
    make("span", { class: goal === top && top > 0 ? "goal top" : "goal" }, role, make("b", {}, String(goal)))));
}

export function drawFacts() {
  const { facts, boards } = now.position;
  $("facts").hidden = facts !== null && !facts.length;
  if (!boards.length) $("facts").open = true;
  const told = facts === null ? ["The engine cannot tell the state of this game."] : facts;
  $("facts-list").replaceChildren(...told.map((fact) => make("li", {}, make("code", {}, fact))));
}
