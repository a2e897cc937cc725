// Values and answers from the server that the page came from.
import { Fault, openLetters } from "./game.js";
import { TURNED } from "./values.js";

const randomName = () => Array.from(crypto.getRandomValues(new Uint8Array(16)), n => (n % 36).toString(36)).join("");
// A newer question came, or the server gave this one up: nothing is to be said.
class Given extends Error {}

export class Server {
  constructor(data) {
    Object.assign(this, { page: randomName(), restart: data.restart, canProve: true, canSearch: true, canExplain: true });
  }
  // Sends a question. A newer one of the same part of the page ends an older one.
  async post(path, part, question, signal) {
    let answer;
    try {
      const body = JSON.stringify({ page: this.page + part, ...question });
      answer = await fetch(path, { method: "POST", headers: { "Content-Type": "application/json" }, signal, body });
    } catch (fault) {
      throw signal && signal.aborted ? fault : new Fault(this.goneWords());
    }
    if (answer.status === 409) throw new Given();
    if (!answer.ok) throw new Fault(faultWords((await answer.json().catch(() => ({}))).fault));
    return answer;
  }
  goneWords() {
    return this.restart
      ? `The program behind this page isn't there any more. Start it again in a terminal (${this.restart}), then go on here.`
      : "The program behind this page isn't there any more. Whoever started it can start it again, and gives you the new link.";
  }
  async ask(path, part, board, letters, question, signal) {
    return (await this.post(path, part, { size: board.word, moves: letters, ...question }, signal)).json();
  }
  // Notes what the proofs of whole boards say of a position and of each of its moves.
  async known(board, letters, facts, signal) {
    const found = await this.ask("known", "k", board, letters, {}, signal);
    const note = (where, { value, lemmas, by, claims = [] }) => {
      for (const claim of claims) facts.noteClaim(where, claim);
      if (value) facts.noteProved(where, { value, lemmas, by });
    };
    note(letters, found);
    for (const [letter, move] of Object.entries(found.moves)) note(letters + letter, move);
  }
  // Notes what the engine says of each move and of the position, as soon as it is known, and calls `told` each time.
  async search(board, letters, facts, signal, told, part = "m") {
    const answer = await this.post("moves", part, { size: board.word, moves: letters }, signal);
    const reader = answer.body.pipeThrough(new TextDecoderStream()).getReader();
    for (let rest = "", piece = await reader.read(); !piece.done; piece = await reader.read()) {
      const lines = (rest + piece.value).split("\n");
      rest = lines.pop();
      for (const { fault, move, searched, moves_to_end: end } of lines.map(line => JSON.parse(line))) {
        if (fault) throw new Fault(faultWords(fault));
        if (move) facts.noteSearched(letters + move, TURNED[searched], end === null ? null : end - 1);
        else facts.noteSearched(letters, searched, end);
      }
      told();
    }
  }
  // Notes the value of a position where a proof of it is found. False where none is.
  async prove(board, letters, facts, signal, question = {}) {
    const answer = await this.ask("ask", "p", board, letters, question, signal);
    if (answer.value !== "unknown")
      facts.noteProved(letters, { value: answer.value, lemmas: answer.lemmas, proof: answer.proof, by: answer.proof ? "" : baseName(answer.by) });
    return answer.value !== "unknown";
  }
  explain(board, letters, signal) {
    return this.ask("explain", "e", board, letters, {}, signal);
  }
  // The side for which a proof plays from a position, and which proof.
  holder(board, letters, sides, signal) {
    return this.ask("holder", "g", board, letters, { sides }, signal);
  }
  playProof(board, player, letters, signal) {
    const question = { by: "proof", proof: player.proof, holder: player.side === "W" ? "white" : "black" };
    return this.answer(board, player, letters, question, signal);
  }
  playPlan(board, player, letters, signal) {
    return this.answer(board, player, letters, { by: "plan", plan: player.plan }, signal);
  }
  playThreat(board, player, letters, signal) {
    return this.answer(board, player, letters, { by: "threat" }, signal);
  }
  // The answer to all moves of the other side's since a position, and which of the two squares is whose.
  async answer(board, player, letters, question, signal) {
    const since = letters.slice(player.from.length), side = "WB"[player.from.length % 2];
    const theirs = [...since].filter((_, k) => (k % 2 === 0) === (side !== player.side)).join("");
    const told = await this.ask("play", "g", board, player.from, { answered: theirs, ...question }, signal);
    const words = told.lines.filter(line => !line.startsWith("threat")).flatMap(line => line.split(" ").slice(0, 2));
    const played = words.filter(word => word !== "-").map(square => square[0]).join("");
    if (!played.startsWith(since) || played.length === since.length)
      throw new Fault("The moves so far aren't those by which it plays. Choose the opponent again to play on from here.");
    return { letter: played[since.length], squares: told.lines[told.lines.length - 1].split(" ") };
  }
}

const baseName = path => (path || "").split("/").pop();
// What the program says, without what is advice for a command line.
function faultWords(text) {
  const said = (text || "").replace(/; ?(--|VICTOR)\S*.*$/, "").replace(/\s*\(make .*\)/, "");
  return said ? `The program says: ${said}.` : "The program refused the question.";
}
export const isGiven = fault => fault instanceof Given || fault.name === "AbortError";
export const isWhole = (board, letters, facts) => openLetters(board, letters).every(letter => facts.ofMove(letters, letter).value);
