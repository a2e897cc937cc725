// Draws a position as a picture that stands alone: on the page, and to be saved.
import { LETTERS, columnsOf, threatsOf } from "./game.js";

const CELL = 48, EDGE = 24, TOP = 62, BOTTOM = 26;
// Blue, yellow and vermilion, which colour-blind people tell apart, and each with the colour of words on it.
const HEADS = { win: ["#0072b2", "#fff"], draw: ["#f0e442", "#222"], loss: ["#d55e00", "#fff"], claim: ["#9a9a9a", "#111"] };
const PAPER = {
  light: { back: "#ffffff", cell: "#f7f5ec", edge: "#8a8a80", ink: "#222222", strong: "#c02020" },
  dark: { back: "#16181c", cell: "#262a31", edge: "#5c626c", ink: "#e6e6e6", strong: "#ff7b6b" },
};
// What the men of both sides look like, and what the sides are called.
export const MEN = {
  "white-black": { names: { W: "White", B: "Black" }, W: ["#ffffff", "#2b2b2b"], B: ["#1d1d1d", "#9a9a9a"] },
  "yellow-red": { names: { W: "Yellow", B: "Red" }, W: ["#ffd23f", "#7a5c00"], B: ["#d7263d", "#5e0010"] },
  "red-yellow": { names: { W: "Red", B: "Yellow" }, W: ["#d7263d", "#5e0010"], B: ["#ffd23f", "#7a5c00"] },
  "black-white": { names: { W: "Black", B: "White" }, W: ["#1d1d1d", "#9a9a9a"], B: ["#ffffff", "#2b2b2b"] },
};
const escaped = text => String(text).replace(/[&<>"]/g, sign => ({ "&": "&amp;", "<": "&lt;", ">": "&gt;", '"': "&quot;" })[sign]);
const words = (x, y, size, colour, text, more = "") =>
  `<text x="${x}" y="${y}" font-size="${size}" text-anchor="middle" fill="${colour}" ${more}>${escaped(text)}</text>`;

// What stands over a column: its value in a word, the moves to the end, and how that is known.
function headOf(x, head) {
  if (!head) return "";
  const [fill, ink] = HEADS[head.isClaim ? "claim" : head.value], [left, wide] = [x - CELL / 2 + 2, CELL - 4];
  const frame = head.isBest ? `stroke="currentColor" stroke-width="3"` : `stroke="none"`;
  const back = `<rect x="${left}" y="14" width="${wide}" height="42" rx="5" fill="${fill}" ${frame} ${head.how === "proved" ? "" : 'fill-opacity="0.85"'}/>`;
  const star = head.isBest ? `<path d="M${x - 7} 1h14l-7 10z" fill="currentColor"/>` : "";
  const word = head.short || head.word, told = words(x, 28, word.length > 5 ? 11 : 12, ink, word, 'font-weight="bold"');
  return back + star + told + (head.end ? words(x, 40, 11, ink, `in ${head.end}`) : "") + words(x, 52, head.how === "searched" ? 8.6 : 9.5, ink, head.how);
}

function manOf(x, y, side, men, { isLast, isBefore, isLine, paper }) {
  const [fill, edge] = men[side], ring = isLine ? `stroke="${paper.strong}" stroke-width="4"` : `stroke="${edge}" stroke-width="2"`;
  const mark = isLast ? `<circle cx="${x}" cy="${y}" r="6" fill="${paper.strong}" stroke="#fff" stroke-width="2"/>`
    : isBefore ? `<circle cx="${x}" cy="${y}" r="5.5" fill="none" stroke="${side === "W" ? paper.strong : "#ff9a8d"}" stroke-width="2"/>` : "";
  return `<circle cx="${x}" cy="${y}" r="19" fill="${fill}" ${ring}/>${mark}`;
}

// The picture. `heads` has words by letters, `fills` a colour and a label by the names of squares, `marked` such names,
// and `labels` what a screen reader says of a column. What is drawn without labels is a picture alone.
export function drawBoard({ board, letters, men, scheme, heads = {}, fills = new Map(), marked = [], hint = "", end = null,
  hasThreats = false, labels = null }) {
  const { cols, rows } = board, columns = columnsOf(board, letters), paper = PAPER[scheme], pieces = [];
  const at = (i, r) => [EDGE + (i + 0.5) * CELL, TOP + (rows - r - 0.5) * CELL];
  const threats = hasThreats && !end ? threatsOf(board, columns) : new Map();
  const last = [1, 2].map(back => letters.length >= back && squareBefore(columns, letters, back));
  for (let i = 0; i < cols; i++) {
    const cells = [], [x] = at(i, 0);
    for (let r = 0; r < rows; r++) {
      const [, y] = at(i, r), name = LETTERS[i] + (r + 1), [fill, label] = fills.get(name) || [paper.cell, ""], side = columns[i][r];
      const edge = marked.includes(name) ? `stroke="${paper.strong}" stroke-width="3"` : `stroke="${paper.edge}"`;
      cells.push(`<rect x="${x - 24}" y="${y - 24}" width="48" height="48" fill="${fill}" ${edge}/>`);
      if (side) {
        const isLine = Boolean(end && end.line.some(([c, s]) => c === i && s === r));
        cells.push(manOf(x, y, side, MEN[men], { isLast: last[0] === name, isBefore: last[1] === name, isLine, paper }));
      } else if (label) cells.push(words(x, y + 4, 11, "#222", label));
      if (!side && hint === LETTERS[i] && r === columns[i].length)
        cells.push(`<circle cx="${x}" cy="${y}" r="17" fill="none" stroke="#009e73" stroke-width="4" stroke-dasharray="7 4"/>`);
      for (const one of threats.get([i, r].join()) || [])
        cells.push(`<circle cx="${x + (one === "W" ? -15 : 15)}" cy="${y + 15}" r="5" fill="${MEN[men][one][0]}" stroke="${paper.strong}" stroke-width="1.5"/>`);
    }
    const head = headOf(x, heads[LETTERS[i]]);
    const top = `<rect x="${x - 24}" y="0" width="48" height="${TOP}" fill="transparent"/>`;
    const group = labels ? `data-column="${LETTERS[i]}" tabindex="0" role="button" aria-label="${escaped(labels[LETTERS[i]])}"` : "";
    pieces.push(`<g ${group}>${top}<g data-head="${LETTERS[i]}">${head}</g>${cells.join("")}</g>`);
    pieces.push(words(x, TOP + rows * CELL + 18, 14, paper.ink, LETTERS[i], 'aria-hidden="true"'));
  }
  for (let r = 0; r < rows; r++) pieces.push(words(EDGE - 11, at(0, r)[1] + 5, 13, paper.ink, r + 1, 'aria-hidden="true"'));
  const wide = EDGE + cols * CELL + 6, high = TOP + rows * CELL + BOTTOM;
  const back = labels ? "" : `<rect width="${wide}" height="${high}" fill="${paper.back}"/>`;
  return `<svg xmlns="http://www.w3.org/2000/svg" viewBox="0 0 ${wide} ${high}" width="${wide}" height="${high}" color="${paper.ink}" ` +
    `font-family="DejaVu Sans, Verdana, sans-serif" ${labels ? 'role="group" aria-label="the board"' : ""}>${back}${pieces.join("")}</svg>`;
}

// The name of the square of the last man, or of the one so many before it.
function squareBefore(columns, letters, back) {
  const letter = letters[letters.length - back], above = [...letters.slice(letters.length - back + 1)].filter(one => one === letter).length;
  return letter + (columns[LETTERS.indexOf(letter)].length - above);
}

// Saves a picture as a file: as it is, or painted twice as large.
export function saveAs(name, blob) {
  const link = document.createElement("a");
  link.href = URL.createObjectURL(blob);
  link.download = name;
  link.click();
  setTimeout(() => URL.revokeObjectURL(link.href), 10_000);
}
export const svgBlob = svg => new Blob([svg], { type: "image/svg+xml" });
export async function pngBlob(svg) {
  const image = new Image(), address = URL.createObjectURL(svgBlob(svg));
  await new Promise((done, failed) => Object.assign(image, { onload: done, onerror: failed, src: address }));
  const canvas = Object.assign(document.createElement("canvas"), { width: 2 * image.width, height: 2 * image.height });
  canvas.getContext("2d").drawImage(image, 0, 0, canvas.width, canvas.height);
  URL.revokeObjectURL(address);
  return new Promise(done => canvas.toBlob(done, "image/png"));
}
