// The game: boards, moves, lines, threats and links. Nothing here touches the page.
// Moves are letters of columns; a column is a string of men from the bottom, W for who moved first and B.
export const LETTERS = "abcdefghij";
export const OTHER = { W: "B", B: "W" };
export const WAYS = [[1, 0], [0, 1], [1, 1], [1, -1]];

// What is wrong with something that was typed, in words for the page.
export class Fault extends Error {}

export class Board {
  constructor(cols, rows, length = 4) {
    Object.assign(this, { cols, rows, length });
  }
  // The board that a word as 7x6 names, or as 8x6x5 where lines of five win.
  static read(text) {
    const found = /^\s*(\d{1,2})\s*x\s*(\d{1,2})(?:\s*x\s*([45]))?\s*$/i.exec(text);
    if (!found || +found[1] < 4 || +found[1] > 10 || ![4, 6, 8, 10].includes(+found[2]))
      throw new Fault(`“${text}” is no board: it has 4 to 10 columns and 4, 6, 8 or 10 rows, as 7x6, or 8x6x5 where five in a line win`);
    return new Board(+found[1], +found[2], +(found[3] || 4));
  }
  get word() { return `${this.cols}x${this.rows}${this.length === 5 ? "x5" : ""}`; }
  get name() { return `${this.cols} by ${this.rows}${this.length === 5 ? " with lines of five" : ""}`; }
  get letters() { return LETTERS.slice(0, this.cols); }
}

export const sideOf = letters => letters.length % 2 ? "B" : "W";

export function columnsOf(board, letters) {
  const columns = Array(board.cols).fill("");
  [...letters].forEach((letter, k) => { columns[LETTERS.indexOf(letter)] += "WB"[k % 2]; });
  return columns;
}

// All lines of a board, each the list of its squares [column, row], with columns and rows from 0. They are kept.
const kept = new Map();
export function linesOf(board) {
  if (kept.has(board.word)) return kept.get(board.word);
  const lines = [];
  for (let i = 0; i < board.cols; i++)
    for (let r = 0; r < board.rows; r++)
      for (const [right, up] of WAYS) {
        const [lastColumn, lastRow] = [i + right * (board.length - 1), r + up * (board.length - 1)];
        if (lastColumn < board.cols && lastRow >= 0 && lastRow < board.rows)
          lines.push(Array.from({ length: board.length }, (_, k) => [i + right * k, r + up * k]));
      }
  kept.set(board.word, lines);
  return lines;
}

// How a game has ended, or null: who has a line and which, or nobody where the board is full.
export function endOf(board, letters) {
  const columns = columnsOf(board, letters);
  for (const side of "WB") {
    const line = linesOf(board).find(squares => squares.every(([i, r]) => columns[i][r] === side));
    if (line) return { winner: side, line };
  }
  return columns.every(column => column.length === board.rows) ? { winner: null, line: [] } : null;
}

// The letters of the columns that take a man.
export function openLetters(board, letters) {
  const columns = columnsOf(board, letters);
  return endOf(board, letters) ? [] : [...board.letters].filter((_, i) => columns[i].length < board.rows);
}

// The empty squares that would make a line whole, by "column,row", each with the sides that it would serve.
export function threatsOf(board, columns) {
  const threats = new Map();
  for (const squares of linesOf(board)) {
    const empty = squares.filter(([i, r]) => !columns[i][r]), sides = new Set(squares.map(([i, r]) => columns[i][r]).filter(Boolean));
    if (empty.length === 1 && sides.size === 1) {
      const name = empty[0].join(), [side] = sides;
      threats.set(name, new Set([...(threats.get(name) || []), side]));
    }
  }
  return threats;
}

// The square, as d4, on which a man falls.
export const squareOf = (board, letters, letter) => letter + (columnsOf(board, letters)[LETTERS.indexOf(letter)].length + 1);

// The squares of the moves, in order.
export function squaresOf(board, letters) {
  return [...letters].map((letter, k) => squareOf(board, letters.slice(0, k), letter));
}

// The letters of a list of moves that can be played, or a Fault that names the first letter that is wrong.
export function readMoves(board, text) {
  const letters = text.replace(/[\s,-]/g, "").toLowerCase().replace(/\d/g, digit => LETTERS["1234567890".indexOf(digit)]);
  for (let k = 0; k < letters.length; k++) {
    const before = letters.slice(0, k), column = columnsOf(board, before)[LETTERS.indexOf(letters[k])], which = `letter ${k + 1}, ${letters[k]}`;
    if (column === undefined) throw new Fault(`${which}, is no column of ${board.name}`);
    if (endOf(board, before)) throw new Fault(`${which}: the game has ended before it`);
    if (column.length === board.rows) throw new Fault(`${which}: that column is full`);
  }
  return letters;
}

// The board and the moves of a page's address, as #7x6/434343.
export function readLink(hash) {
  const [, size, moves] = /^#([^/]*)\/?(.*)$/.exec(hash) || [null, "7x6", ""];
  const board = Board.read(decodeURIComponent(size));
  return { board, letters: readMoves(board, decodeURIComponent(moves)) };
}
export const linkOf = (board, letters) => `#${board.word}/${letters || "-"}`;
