// A file with the rules of a game: one that is chosen, or dropped anywhere on the page.
import { openRules } from "./opening.js";

// So long rules may be, as the solver reads them.
const MOST_BYTES = 1048576;

// The text of a file. Any byte may stand in a comment, but none that no text has.
async function textOf(file) {
  if (file.size > MOST_BYTES) {
    throw new Error(`${file.name} has ${file.size.toLocaleString("en")} bytes, and rules have at most ${MOST_BYTES.toLocaleString("en")}.`);
  }
  let bytes;
  try { bytes = new Uint8Array(await file.arrayBuffer()); } catch { throw new Error(`${file.name} cannot be read.`); }
  if (bytes.some((byte) => byte < 9 || (byte > 13 && byte < 32) || byte === 127)) throw new Error(`${file.name} is no text.`);
  try { return new TextDecoder("utf-8", { fatal: true }).decode(bytes); } catch { return new TextDecoder("windows-1252").decode(bytes); }
}

// Opens the rules of a file, by its name. Those as games are found are written out.
export async function takeFile(file) {
  await openRules({ text: await textOf(file), name: file.name.replace(/\.[^.]*$/, "") || file.name, whole: true });
}

const hasFiles = (event) => [...(event.dataTransfer?.types || [])].includes("Files");

export function dragged(event) {
  if (!hasFiles(event)) return;
  event.preventDefault();
  document.body.classList.add("dropping");
}

export function dragEnds(event) {
  if (event.type === "drop" || !event.relatedTarget) document.body.classList.remove("dropping");
}

export async function dropped(event) {
  dragEnds(event);
  if (!hasFiles(event)) return;
  event.preventDefault();
  const files = [...event.dataTransfer.files];
  const file = files.find(({ name }) => /\.(kif|gdl)$/i.test(name)) || files[0];
  if (file) await takeFile(file);
}
