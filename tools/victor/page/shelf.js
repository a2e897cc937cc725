// Values and answers from proofs that lie beside the page, where there is no server. Nothing is checked here: the folder
// was written from proofs that `victor check` accepts.
import { Fault, LETTERS, OTHER, columnsOf, endOf, openLetters, sideOf } from "./game.js";
import { TURNED } from "./values.js";
import { answerByPlan, mirroredPlan, zoneOf } from "./plans.js";

const CLAIMS = { W: "W+", w: "W-", B: "B+", b: "B-" };
const mirrored = columns => [...columns].reverse();
const isBelow = (columns, goal) => columns.every((column, i) => goal[i].startsWith(column));

// A proof as a text, of which a line is read when it is wanted. The first line has the value, the lemmas that the verdict
// names, and what the proof is called; then comes a lemma in each line.
class Proof {
  constructor(board, bytes) {
    this.board = board;
    this.bytes = bytes;
    this.begins = [0];
    for (let at = bytes.indexOf(10); at >= 0; at = bytes.indexOf(10, at + 1)) this.begins.push(at + 1);
    const [value, numbers, name] = this.line(0).split(" ");
    Object.assign(this, { value, name, numbers: numbers.split(",").map(Number), count: this.begins.length - 2 });
  }
  line(number) {
    return new TextDecoder().decode(this.bytes.subarray(this.begins[number], this.begins[number + 1] - 1));
  }
  // A lemma: what it claims, its kind, and the lemmas that it cites by letters, or the members of its plan.
  lemma(number) {
    const line = this.line(number), kind = line[1], rest = line.slice(2), cites = {};
    if (kind === "p") return { claim: CLAIMS[line[0]], kind, members: rest.split(" ") };
    if (kind === "m") return { claim: CLAIMS[line[0]], kind, cited: number - Number(rest) };
    for (const [, letter, back] of rest.matchAll(/([a-j])(\d+)/g)) cites[letter] = number - Number(back);
    return { claim: CLAIMS[line[0]], kind, cites };
  }
  // The claims of lemmas at a position, and the plan where one is the reason.
  claimsAt(letters) {
    const goal = columnsOf(this.board, letters), goals = [goal, mirrored(goal)], seen = new Set(), claims = new Map();
    const left = this.numbers.map(number => [number, Array(this.board.cols).fill("")]);
    while (left.length) {
      const [number, columns] = left.pop(), side = "WB"[columns.join("").length % 2];
      if (seen.has(number) || !goals.some(one => isBelow(columns, one))) continue;
      seen.add(number);
      const lemma = this.lemma(number), turn = goals.findIndex(one => one.join() === columns.join());
      if (turn >= 0 && !claims.has(lemma.claim))
        claims.set(lemma.claim, lemma.members && (turn ? mirroredPlan(this.board, lemma.members) : lemma.members));
      if (turn >= 0) continue;
      if (lemma.kind === "m") left.push([lemma.cited, mirrored(columns)]);
      for (const [letter, cited] of Object.entries(lemma.cites || {}))
        left.push([cited, columns.map((column, i) => i === LETTERS.indexOf(letter) ? column + side : column)]);
    }
    return claims;
  }
  // The sides that the verdict serves.
  get holders() {
    return { win: "W", loss: "B", draw: "BW" }[this.value];
  }
  // What a side plays after these moves, by the lemmas from the first move on, or null where the moves aren't its own.
  answer(holder, letters) {
    const turned = letter => LETTERS[this.board.cols - 1 - LETTERS.indexOf(letter)];
    let number = this.numbers.find(one => this.lemma(one).claim[0] === holder === (this.lemma(one).claim[1] === "+"));
    let isTurned = false;
    for (let k = 0; k <= letters.length; k++) {
      let lemma = this.lemma(number);
      for (; lemma.kind === "m"; lemma = this.lemma(lemma.cited)) isTurned = !isTurned;
      if (lemma.kind === "p")
        return answerByPlan(this.board, isTurned ? mirroredPlan(this.board, lemma.members) : lemma.members, letters);
      if (lemma.kind === "e") return null;
      const [own] = Object.keys(lemma.cites), isOwn = "WB"[k % 2] === holder;
      if (k === letters.length) return isOwn ? (isTurned ? turned(own) : own) : null;
      number = lemma.cites[isTurned ? turned(letters[k]) : letters[k]];
      if (!number) return null;
    }
    return null;
  }
}

// The proofs and the table of openings of a folder, which its files hand over by `shelve`.
export class Shelf {
  constructor(data) {
    Object.assign(this, { boards: data.boards, openings: data.openings, waiting: new Map(), kept: new Map() });
    this.canProve = this.canSearch = this.canExplain = false;
    window.shelve = (name, text) => this.waiting.get(name)?.(text);
  }
  // The bytes of a file, by a script, since a page that was opened as a file may read no other way.
  async bytes(name, path) {
    const text = await new Promise((done, failed) => {
      this.waiting.set(name, done);
      const script = Object.assign(document.createElement("script"), { src: path });
      script.onerror = () => failed(new Fault(`The file ${path} of this folder is gone.`));
      document.head.append(script);
    });
    const packed = Uint8Array.from(atob(text), sign => sign.charCodeAt(0));
    const stream = new Blob([packed]).stream().pipeThrough(new DecompressionStream("gzip"));
    return new Uint8Array(await new Response(stream).arrayBuffer());
  }
  // The proof of a board, or null where the folder has none.
  proofOf(board) {
    const path = this.boards[board.word];
    if (path && !this.kept.has(board.word))
      this.kept.set(board.word, this.bytes(board.word, path).then(bytes => new Proof(board, bytes)));
    return path ? this.kept.get(board.word) : null;
  }
  // Notes what the proof says of a position and of each of its moves.
  async known(board, letters, facts) {
    const proof = await this.proofOf(board);
    for (const next of ["", ...openLetters(board, letters)]) {
      const end = endOf(board, letters + next);
      if (end) facts.noteProved(letters + next, { value: end.winner ? "loss" : "draw" });
      else if (proof) this.noteClaims(proof, letters + next, facts);
    }
    await this.noteOpening(board, letters, facts);
  }
  noteClaims(proof, letters, facts) {
    const claims = proof.claimsAt(letters), side = sideOf(letters);
    for (const claim of claims.keys()) facts.noteClaim(letters, claim);
    const value = claims.has(`${side}+`) ? "win" : claims.has(`${OTHER[side]}+`) ? "loss" : claims.has("W-") && claims.has("B-") ? "draw" : "";
    if (value) facts.noteProved(letters, { value, lemmas: proof.count, by: proof.name });
  }
  // Notes what the table of openings says of the moves, where there is one for the board.
  async noteOpening(board, letters, facts) {
    if (!this.openings[board.word]) return;
    const path = this.openings[board.word], { men, table } = await (this.table ||= this.readTable(path));
    for (const next of ["", ...openLetters(board, letters)]) {
      const value = letters.length + next.length <= men && openingValue(board, table, men, letters + next);
      if (value) facts.noteSearched(letters + next, value);
    }
  }
  async readTable(path) {
    const lines = new TextDecoder().decode(await this.bytes("openings", path)).trim().split("\n");
    const entries = lines.slice(1).map(line => line.split(","));
    const table = new Map(entries.map(([letters, value]) => [keyOf(letters), value]));
    return { men: entries[0][0].length, table };
  }
  async search() {}
  async prove() {}
  // The plan that a lemma of the proof names at the position, told without sentences.
  async explain(board, letters) {
    const proof = await this.proofOf(board), members = proof && proof.claimsAt(letters).get("W-");
    if (!members) return { found: false, lines: ["no plan"], words: ["No plan at this position lies beside this page."] };
    const lines = [`plan ${members.join(" ")}`, ...members.map(member => `${member} owns ${zoneOf(member).join(" ") || "-"}`)];
    return { found: true, lines, words: ["Black has a plan. Whatever White takes, Black has an answer, and White gets no line."] };
  }
  async holder(board, letters, sides) {
    const proof = await this.proofOf(board), holders = proof ? [...proof.holders].filter(side => sides.includes(side)) : [];
    const holder = holders.find(side => isFollowed(proof, side, letters));
    const claim = proof && proof.value === "draw" ? `${OTHER[holder]}-` : `${holder}+`;
    return holder ? { holder, proof: "whole", claim, from: "" } : { holder: null };
  }
  // The letter by which who plays by the proof answers.
  async playProof(board, player, letters) {
    const letter = (await this.proofOf(board)).answer(player.side, letters);
    if (!letter) throw new Fault("the proof has no answer there");
    return { letter, words: "" };
  }
  async playPlan(board, player, letters) {
    return { letter: answerByPlan(board, player.plan.split(" ").slice(1), letters) };
  }
  async playThreat() { throw new Fault("A threat is looked for by the program: this page has none behind it."); }
}

// The side's moves so far are those of the proof.
function isFollowed(proof, side, letters) {
  return [...letters].every((letter, k) => "WB"[k % 2] !== side || proof.answer(side, letters.slice(0, k)) === letter);
}

// The value of a position for the side to move, from a table of all with so many men; undefined where one is missing.
// What is found stays in the table. A game of so few men ends with its seventh at the earliest.
function openingValue(board, table, men, letters) {
  const key = keyOf(letters);
  if (table.has(key)) return table.get(key);
  const end = letters.length >= 2 * board.length - 1 && endOf(board, letters);
  if (end) return "loss";
  if (letters.length === men) return table.get(keyOf(mirrorOf(board, letters)));
  const columns = columnsOf(board, letters), open = [...board.letters].filter((_, i) => columns[i].length < board.rows);
  const values = open.map(letter => TURNED[openingValue(board, table, men, letters + letter)]);
  const value = values.includes("win") ? "win" : values.includes(undefined) ? undefined : values.includes("draw") ? "draw" : "loss";
  if (value) table.set(key, value);
  return value;
}
const mirrorOf = (board, letters) => [...letters].map(letter => LETTERS[board.cols - 1 - LETTERS.indexOf(letter)]).join("");
// The men of each column, however they were reached.
function keyOf(letters) {
  const columns = {};
  [...letters].forEach((letter, k) => { columns[letter] = (columns[letter] || "") + "WB"[k % 2]; });
  return Object.keys(columns).sort().map(letter => letter + columns[letter]).join();
}
