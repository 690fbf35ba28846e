// The tree of the line: best play turn by turn, and what else can be played.
import { look } from "./asking.js";
import { $, make } from "./dom.js";
import { does, long, now, played, same, short } from "./state.js";
import { guarded, say } from "./status.js";
import { narrower, worthText } from "./worth.js";

function node(turn, path, main) {
  return { turn, path: [...path, turn], children: [], full: false, open: main, main, told: null, loading: false };
}

// The tree of a choice: its line, node below node.
export function drawTree(choice) {
  const part = $("tree-part");
  part.hidden = !choice;
  if (!choice) { now.tree = null; return; }
  $("tree-role").textContent = now.role;
  if (now.tree && (now.tree.touched || same(now.tree.line, choice.line))) {
    const known = now.tree.children.find((each) => same(each.turn, choice.line[0]));
    if (known && known.told !== narrower(known.told, choice)) { known.told = choice; growTree(); }
    return;
  }
  const root = { children: [], path: [], full: false, open: true, line: choice.line, touched: false, role: now.role };
  let at = root;
  for (const turn of choice.line) {
    const next = node(turn, at.path, true);
    at.children.push(next);
    at = next;
  }
  root.children.forEach((each) => { each.told = choice; });
  now.tree = root;
  growTree();
}

// A node in the tree. `within` is the node above it, at the last one of whose children the others are to be had.
function item(one, within, level) {
  const value = one.told && one.told.depth ? worthText(one.told) : null;
  const tag = value ? make("span", { class: "tag" }, value.filter(Boolean).join(" ")) : null;
  const fold = make("span", { class: "fold", "aria-hidden": "true" }, one.open ? "▾" : "▸");
  const number = now.at + one.path.length;
  const face = make("span", { class: one.main ? "node main" : "node" }, fold,
    make("span", { class: "no" }, String(number)), make("span", { class: "move" }, short(one.turn)), tag);
  face.addEventListener("click", (event) => (event.target === fold ? toggle(one) : does.visit(one)));
  const made = make("li", { role: "treeitem", "aria-level": String(level), "aria-expanded": String(one.open), tabIndex: -1 }, face);
  made.setAttribute("aria-label", `turn ${number}, ${long(one.turn)}${value ? ", " + value.join(" ") : ""}`);
  if (!within.full && one === within.children[within.children.length - 1]) made.append(more(within));
  made.one = one;
  made.within = within;
  if (one.open) made.append(branch(one, level + 1));
  return made;
}

// What loads all that can be played at a node; the key * does the same.
function more(one) {
  const text = one.loading ? "looking …" : "+ other moves";
  const made = make("span", { class: "node more", "aria-hidden": "true" }, make("span", { class: "tag" }, text));
  made.addEventListener("click", guarded(() => others(one)));
  return made;
}

function branch(one, level) {
  return make("ul", { role: "group" }, ...one.children.map((child) => item(child, one, level)));
}

function growTree() {
  const key = document.activeElement?.one ? JSON.stringify(document.activeElement.one.path) : null;
  $("tree").replaceChildren(...branch(now.tree, 1).children);
  const all = treeItems();
  const held = key && all.find((each) => JSON.stringify(each.one.path) === key);
  (held || all[0])?.setAttribute("tabindex", "0");
  if (held) held.focus();
}

const treeItems = () => [...$("tree").querySelectorAll("[role=treeitem]")];

function toggle(one) {
  now.tree.touched = true;
  one.open = !one.open;
  growTree();
  if (one.open && !one.children.length) others(one).catch((fault) => say(fault.message, true));
}

// All turns that can be played at a node, with what they are worth.
async function others(one) {
  if (one.loading || one.full) return;
  const { tree } = now;
  tree.touched = true;
  one.loading = true;
  growTree();
  const question = { after: [...played(), ...one.path], role: tree.role, seconds: 2 };
  const told = await look("replies", question, (news) => {
    if (tree !== now.tree) return;
    for (const choice of news.moves) {
      const turn = choice.line[0];
      let child = one.children.find((each) => same(each.turn, turn));
      if (!child) { child = node(turn, one.path, false); one.children.push(child); }
      child.told = narrower(child.told, choice);
    }
    growTree();
  });
  if (told === null || tree !== now.tree) return;
  one.loading = false;
  one.full = true;
  growTree();
}

export function walkTree(event) {
  const all = treeItems();
  const at = all.indexOf(document.activeElement);
  if (at < 0) return;
  const { one, within } = all[at];
  const level = (each) => Number(each.getAttribute("aria-level"));
  const focus = (each) => {
    if (!each) return;
    all.forEach((other) => other.setAttribute("tabindex", "-1"));
    each.setAttribute("tabindex", "0");
    each.focus();
  };
  const keys = {
    ArrowDown: () => focus(all[at + 1]),
    ArrowUp: () => focus(all[at - 1]),
    Home: () => focus(all[0]),
    End: () => focus(all[all.length - 1]),
    ArrowRight: () => (one.open ? one.children.length && focus(all[at + 1]) : toggle(one)),
    ArrowLeft: () => (one.open ? toggle(one)
      : focus(all.slice(0, at).reverse().find((each) => level(each) < level(all[at])))),
    Enter: () => does.visit(one),
    "*": () => others(within).catch((fault) => say(fault.message, true)),
  };
  keys[" "] = keys.Enter;
  if (!keys[event.key]) return;
  event.preventDefault();
  event.stopPropagation();
  keys[event.key]();
}
