// What is known of positions: what was searched, what was proved, and what one side's claim shows. At no time are two
// values told of a position that contradict each other: the strongest counts.
import { OTHER, columnsOf, openLetters, sideOf } from "./game.js";

export const TURNED = { win: "loss", loss: "win", draw: "draw" };
export const VERBS = { win: "wins", draw: "draws", loss: "loses" };
const ORDER = ["win", "draw", "loss"];

export class Facts {
  constructor(board) {
    this.board = board;
    this.kept = new Map();
  }
  // The facts of a position, however it was reached. Values are those of the side to move.
  of(letters) {
    const key = columnsOf(this.board, letters).join("|");
    if (!this.kept.has(key)) this.kept.set(key, { claims: new Set() });
    return this.kept.get(key);
  }
  // What was searched. A count of moves to the end is never lost again.
  noteSearched(letters, value, end) {
    const fact = this.of(letters);
    fact.searched = value;
    if (end !== null && end !== undefined) fact.end = end;
  }
  // What was proved, by so many lemmas; `proof` is the number of its page, and `by` a proof of a whole game.
  noteProved(letters, { value, lemmas, proof, by }) {
    const fact = this.of(letters);
    if (VERBS[value] && !(fact.proved && fact.proved.proof)) fact.proved = { value, lemmas, proof, by };
  }
  // What a lemma or a plan claims, as W-, White doesn't win, or W+, White wins. The first holds behind each move of
  // White's too, and the second behind each of Black's.
  noteClaim(letters, claim) {
    this.of(letters).claims.add(claim);
    if ((claim[1] === "-") === (claim[0] === sideOf(letters)))
      for (const letter of openLetters(this.board, letters)) this.of(letters + letter).claims.add(claim);
  }
  // The strongest that is known of a position: its value for the side to move with `how` it is known, or the claims.
  verdict(letters) {
    const fact = this.of(letters), side = sideOf(letters), claims = [...fact.claims], end = fact.end;
    const excluded = new Set(claims.map(claim => (claim[0] === side) === (claim[1] === "-") ? "win" : "loss"));
    const proved = fact.proved || this.provedByMove(letters) || provedByClaims(claims, side);
    if (proved) return { ...proved, how: "proved", claims, end: fact.searched === proved.value ? end : undefined };
    if (fact.searched && !excluded.has(fact.searched)) return { value: fact.searched, how: "searched", claims, end };
    return { claims };
  }
  // A move behind which the other side was proved to lose wins; where each was proved, the best of them counts.
  provedByMove(letters) {
    const moves = openLetters(this.board, letters).map(letter => this.of(letters + letter).proved);
    const values = moves.map(proved => proved && TURNED[proved.value]), won = values.indexOf("win");
    if (won >= 0) return { value: "win", lemmas: moves[won].lemmas && moves[won].lemmas + (moves[won].by ? 0 : 1), by: moves[won].by };
    const isWhole = values.length && values.every(Boolean);
    return isWhole ? { value: ORDER.find(value => values.includes(value)) } : null;
  }
  // The verdict of a move, for the side that makes it.
  ofMove(letters, letter) {
    const { value, end, ...more } = this.verdict(letters + letter);
    return { ...more, letter, value: value && TURNED[value], end: end === undefined ? undefined : end + 1 };
  }
  // The letters of the best moves. They are known where one wins, or all are known.
  best(letters) {
    const moves = openLetters(this.board, letters).map(letter => this.ofMove(letters, letter));
    const value = ORDER.find(one => moves.some(move => move.value === one));
    if (!value || value !== "win" && moves.some(move => !move.value)) return [];
    const equal = moves.filter(move => move.value === value), ends = equal.map(move => move.end);
    if (value === "draw" || ends.some(end => end === undefined)) return equal.map(move => move.letter);
    const most = value === "win" ? Math.min(...ends) : Math.max(...ends);
    return equal.filter(move => move.end === most).map(move => move.letter);
  }
  // The moves in the order in which they look best by what is known.
  ranked(letters) {
    const rank = ({ value, end }) => value === "win" ? (end || 50) : value === "draw" ? 200 : value ? 500 - (end || 0) : 100;
    return openLetters(this.board, letters).sort((one, other) => rank(this.ofMove(letters, one)) - rank(this.ofMove(letters, other)));
  }
  // The last of the moves gave something away: the values before it, for the side that made it, and after it; else null.
  mistake(letters) {
    const before = this.verdict(letters.slice(0, -1)).value, after = this.ofMove(letters.slice(0, -1), letters.slice(-1)).value;
    return before && after && ORDER.indexOf(after) > ORDER.indexOf(before) ? { before, after } : null;
  }
}

// What claims alone prove of a position: a win, or a draw where neither side wins.
function provedByClaims(claims, side) {
  const value = claims.includes(`${side}+`) ? "win" : claims.includes(`${OTHER[side]}+`) ? "loss" : claims.length === 2 ? "draw" : "";
  return value && { value };
}

const many = (count, word) => `${count.toLocaleString("en")} ${word}${count === 1 ? "" : "s"}`;
export const lemmasOf = count => many(count, "lemma");

// A claim in words, as "White doesn't win".
export const said = (claim, names) => `${names[claim[0]]} ${claim[1] === "-" ? "doesn't win" : "wins"}`;

// One line on a position, with what it rests on.
export function valueLine(verdict, side, names) {
  const { value, how, end, lemmas, by, claims } = verdict, other = names[OTHER[side]];
  const to_end = end === undefined ? "" : ` in ${many(end, "move")}${how === "proved" ? " (searched)" : ""}`;
  const rests = how === "proved" ? `proved${lemmas ? ` by ${lemmasOf(lemmas)}` : ""}${by ? " of the whole board's proof" : ""}` : "searched";
  const words = { win: `${names[side]} wins`, loss: `${other} wins`, draw: "A draw" }[value];
  const proved = how === "proved" ? [] : claims.map(claim => `${said(claim, names)} (proved)`);
  const told = words ? [`${words} (${rests})${to_end}`, ...proved] : proved;
  return told.length ? `${told.join(". ")}.` : "";
}

// The words on a move: its value, moves to the end, and how that is known.
export function moveWords(move, names) {
  if (move.value) return { word: VERBS[move.value], end: move.end, how: move.how };
  const [claim] = move.claims;
  return claim ? { word: `${names[claim[0]]} doesn't win`, short: "no win", how: "proved", isClaim: true } : null;
}
