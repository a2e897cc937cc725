// A small search for the easier opponents: so many moves ahead, and what lies behind counts nothing.
import { LETTERS, WAYS, openLetters } from "./game.js";

const WON = 1000;

class Position {
  constructor(board, letters) {
    this.board = board;
    this.heights = new Int8Array(board.cols);
    this.men = new Int8Array(board.cols * board.rows);
    this.turn = 1;
    for (const letter of letters) this.play(LETTERS.indexOf(letter));
    this.order = Array.from({ length: board.cols }, (_, i) => i).sort((i, j) => Math.abs(2 * i - board.cols + 1) - Math.abs(2 * j - board.cols + 1));
  }
  play(i) {
    this.men[i * this.board.rows + this.heights[i]++] = this.turn;
    this.turn = -this.turn;
  }
  undo(i) {
    this.turn = -this.turn;
    this.men[i * this.board.rows + --this.heights[i]] = 0;
  }
  // Whether a man of the side to move makes a line in this column.
  wins(i) {
    const { cols, rows, length } = this.board, r = this.heights[i];
    const run = (right, up) => {
      let n = 0;
      for (let x = i + right, y = r + up; x >= 0 && x < cols && y >= 0 && y < rows && this.men[x * rows + y] === this.turn; x += right, y += up) n++;
      return n;
    };
    return WAYS.some(([right, up]) => run(right, up) + run(-right, -up) >= length - 1);
  }
  // The score for the side to move, so many moves ahead: the sooner it wins, the more.
  score(depth, least, most) {
    const open = this.order.filter(i => this.heights[i] < this.board.rows);
    if (!open.length || depth <= 0) return 0;
    if (open.some(i => this.wins(i))) return WON - 1;
    for (const i of open) {
      this.play(i);
      const score = later(-this.score(depth - 1, -most, -least));
      this.undo(i);
      if (score > least) least = score;
      if (least >= most) break;
    }
    return least;
  }
}
const later = score => score - Math.sign(score) * (Math.abs(score) > 1 ? 1 : 0);

// The move that looks best so many moves ahead, by chance among equals, of which the middle ones come more often.
export function chooseBySearch(board, letters, depth, chance = Math.random) {
  const position = new Position(board, letters), found = openLetters(board, letters).map(letter => {
    const i = LETTERS.indexOf(letter);
    if (position.wins(i)) return { letter, score: WON };
    position.play(i);
    const score = later(-position.score(depth - 1, -WON, WON));
    position.undo(i);
    return { letter, score };
  });
  const best = Math.max(...found.map(one => one.score)), equal = found.filter(one => one.score === best);
  const weights = equal.map(({ letter }) => 1 / (1 + Math.abs(LETTERS.indexOf(letter) - (board.cols - 1) / 2)));
  let left = chance() * weights.reduce((sum, weight) => sum + weight, 0);
  return equal.find((_, k) => (left -= weights[k]) <= 0)?.letter || equal[equal.length - 1].letter;
}
