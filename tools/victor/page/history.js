// The game as a list with the variations that were tried, and as a graph of its values.
import { LETTERS, OTHER, sideOf, squareOf } from "./game.js";
import { VERBS } from "./values.js";

// The moves that were tried from each position, and which of them last.
export class Tried {
  constructor() {
    this.next = new Map();
    this.latest = new Map();
  }
  note(letters) {
    for (let k = 0; k < letters.length; k++) {
      const before = letters.slice(0, k), found = this.next.get(before) || [];
      if (!found.includes(letters[k])) this.next.set(before, [...found, letters[k]]);
      this.latest.set(before, letters[k]);
    }
  }
  // The moves behind these that were played last.
  later(letters) {
    let line = letters;
    while (this.latest.has(line)) line += this.latest.get(line);
    return line;
  }
}

// The list: the line that is shown, and in brackets the moves that were tried in place of one of its.
export function drawList(place, { board, tried, facts, letters, go }) {
  const line = tried.later(letters);
  const item = moves => {
    const link = document.createElement("a"), number = moves.length % 2 ? `${(moves.length + 1) / 2}. ` : "";
    link.href = "#";
    link.dataset.moves = moves;
    link.textContent = number + squareOf(board, moves.slice(0, -1), moves.slice(-1));
    link.className = moves === letters ? "here" : "";
    if (moves === letters) link.setAttribute("aria-current", "step");
    link.addEventListener("click", event => { event.preventDefault(); go(moves); });
    const mistake = facts && facts.mistake(moves), piece = document.createElement("span");
    piece.append(link);
    if (mistake) {
      const mark = Object.assign(document.createElement("b"), { className: "mistake", textContent: mistake.after === "loss" && mistake.before === "win" ? "??" : "?" });
      mark.title = `a mistake: it ${VERBS[mistake.after]}, where another move ${VERBS[mistake.before]}`;
      piece.append(mark);
    }
    piece.append(" ");
    return piece;
  };
  const onLine = moves => line.length > moves.length && line.startsWith(moves) ? line[moves.length] : tried.next.get(moves)?.[0] || "";
  // A variation's first move has those that were tried in its place outside of its brackets.
  const follow = (moves, first = "") => {
    const pieces = [];
    for (let now = moves, next = first || onLine(now); next; next = onLine(now)) {
      pieces.push(item(now + next));
      const others = first && now === moves ? [] : (tried.next.get(now) || []).filter(letter => letter !== next);
      for (const other of others) pieces.push(bracketed(follow(now, other)));
      now += next;
    }
    return pieces;
  };
  const beginning = document.createElement("a");
  Object.assign(beginning, { href: "#", textContent: "start", className: letters ? "" : "here" });
  beginning.dataset.moves = "";
  beginning.addEventListener("click", event => { event.preventDefault(); go(""); });
  place.replaceChildren(beginning, " ", ...follow(""));
}
function bracketed(pieces) {
  const group = Object.assign(document.createElement("span"), { className: "variation" });
  group.append("(", ...pieces, ") ");
  return group;
}

// The graph: how a game stood behind each of its moves, above the middle for who began.
export function drawGraph(place, { board, facts, letters, line, names, go }) {
  const wide = 320, high = 110, edge = 30, all = Math.max(line.length, 1), squares = board.cols * board.rows;
  const x = k => edge + (wide - edge - 8) * k / all;
  const points = Array.from({ length: line.length + 1 }, (_, k) => [k, heightOf(facts, line.slice(0, k), squares)]).filter(([, y]) => y !== null);
  const y = value => high / 2 - value * (high / 2 - 12);
  const path = points.map(([k, value], n) => `${n && points[n - 1][0] === k - 1 ? "L" : "M"}${x(k).toFixed(1)} ${y(value).toFixed(1)}`).join("");
  const dots = points.map(([k, value]) => {
    const isMistake = k && facts.mistake(line.slice(0, k)), moves = line.slice(0, k);
    return `<circle class="${isMistake ? "mistake" : "point"}" data-moves="${moves}" cx="${x(k).toFixed(1)}" cy="${y(value).toFixed(1)}" r="${isMistake ? 6 : 4}"><title>${
      k ? `after ${squareOf(board, moves.slice(0, -1), moves.slice(-1))}` : "at the start"}${isMistake ? ": a mistake" : ""}</title></circle>`;
  });
  const told = [[1, `${names.W[0]} wins`], [0, "draw"], [-1, `${names.B[0]} wins`]];
  place.innerHTML = `<svg viewBox="0 0 ${wide} ${high}" role="img" aria-label="how the game stood: above the middle ${names.W} wins, below it ${names.B}">` +
    told.map(([value, words]) => `<line class="rule" x1="${edge}" x2="${wide}" y1="${y(value)}" y2="${y(value)}"/><text x="0" y="${y(value) + 3}" font-size="9">${words}</text>`).join("") +
    `<line class="now" x1="${x(letters.length)}" x2="${x(letters.length)}" y1="4" y2="${high - 4}"/><path d="${path}"/>${dots.join("")}</svg>`;
  place.onclick = event => {
    if (event.target.dataset.moves !== undefined) go(event.target.dataset.moves);
  };
}
// The value of a position for who began, between 1 and -1: the sooner the end, the further from the middle.
function heightOf(facts, letters, squares) {
  const { value, end } = facts.verdict(letters), winner = value === "win" ? sideOf(letters) : OTHER[sideOf(letters)];
  if (!value) return null;
  if (value === "draw") return 0;
  return (winner === "W" ? 1 : -1) * (end === undefined ? 0.7 : 1 - 0.6 * Math.min(1, end / squares));
}

// What a screen reader says of a column: its men from the bottom, and the move there.
export function columnLabel(board, letter, men, names, move, words) {
  const told = men ? [...men].map(side => names[side].toLowerCase()).join(", ") : "empty";
  const value = words ? `; the move ${words.word}${words.end ? ` in ${words.end}` : ""}, ${words.how}` : "";
  const i = LETTERS.indexOf(letter) + 1, next = men.length < board.rows ? `; next ${letter}${men.length + 1}` : "; full";
  return `column ${letter}, ${i} of ${board.cols}: ${told}${next}${move ? value : ""}`;
}
