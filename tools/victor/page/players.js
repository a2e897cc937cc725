// Who answers in a game: a proof, a plan, a threat, or the engine at four strengths.
import { Fault, OTHER, openLetters, sideOf } from "./game.js";
import { chooseBySearch } from "./search.js";

const AHEAD = { "engine-1": 2, "engine-2": 4, "engine-3": 8 };
const SETTLED = 1500; // milliseconds in which a quicker win may still be found
export const OPPONENTS = {
  "": "nobody, both sides are mine",
  "engine-1": "the engine: sees wins at once",
  "engine-2": "the engine: 4 moves ahead",
  "engine-3": "the engine: 8 moves ahead",
  "engine-4": "the engine: perfect",
  proof: "a proof",
  plan: "a plan of Black's",
  threat: "a threat of White's",
};

// The opponent of a kind, from a position on, for who has the side `you`. It may have another side than was asked for:
// a proof, a plan and a threat serve one side alone. A Fault says why there is none.
export async function opponentOf(kind, table) {
  if (kind === "proof") return proofPlayer(table);
  if (kind === "plan") return planPlayer(table);
  if (kind === "threat") return threatPlayer(table);
  return kind === "engine-4" ? perfectPlayer(table) : searchPlayer(kind, table);
}

async function proofPlayer({ board, letters, you, source, signal, names }) {
  const sides = OTHER[you] + you, found = await source.holder(board, letters, sides, signal);
  if (!found.holder) throw new Fault("No proof of this position is at hand, so none can play from here. Try the first move, or a later one.");
  const player = { kind: "proof", how: "proved", side: found.holder, from: found.from, proof: found.proof, claim: found.claim, members: [] };
  player.promise = `${names[player.side]} plays by a proof${found.holder === you ? ", which serves that side alone" : ""}: ${names[OTHER[player.side]]} can't win.`;
  player.reply = (now, stop) => source.playProof(board, player, now, stop);
  return player;
}

async function planPlayer({ board, letters, source, signal, names }) {
  if (sideOf(letters) === "B") throw new Fault(`A plan answers ${names.W}'s moves: choose it where ${names.W} is to move.`);
  const told = await source.explain(board, letters, signal);
  if (!told.found) throw new Fault(`${names.B} has no plan here, so none can answer. Boards of 4, 5 or 6 columns have one from the first move.`);
  const player = { kind: "plan", how: "proved", side: "B", from: letters, plan: told.lines[0], told, claim: "W-" };
  player.members = membersOf(told);
  player.promise = `${names.B} plays by a plan: ${names.W} never gets a line.`;
  player.reply = async (now, stop) => {
    const { letter, squares = [] } = await source.playPlan(board, player, now, stop);
    const member = player.members.find(one => squares.length && squares.every(square => one.squares.includes(square)));
    return { letter, words: member ? `in the zone of ${member.name}` : "" };
  };
  return player;
}

async function threatPlayer({ board, letters, source, signal, names }) {
  if (sideOf(letters) === "W") throw new Fault(`A threat answers ${names.B}'s moves: choose it where ${names.B} is to move.`);
  const player = { kind: "threat", how: "proved", side: "W", from: letters, claim: "W+", members: [] };
  const told = await source.ask?.("play", "g", board, letters, { answered: "", by: "threat" }, signal);
  if (!told || !told.found) throw new Fault(`${names.W} has no odd threat here, so none can answer. There is one in endings alone.`);
  player.promise = `${names.W} plays by an odd threat, and wins.`;
  player.reply = (now, stop) => source.playThreat(board, player, now, stop);
  return player;
}

// Sees so many moves ahead, and no further.
function searchPlayer(kind, { board, you, names }) {
  const player = { kind, how: "searched", side: OTHER[you], members: [] };
  player.promise = `${names[player.side]} looks ${AHEAD[kind]} moves ahead.`;
  player.reply = async now => ({ letter: chooseBySearch(board, now, AHEAD[kind]), words: "" });
  return player;
}

// Takes the best move by all that is known and searched. Where the search is stopped, the best until then.
function perfectPlayer({ board, you, source, facts, names }) {
  if (!source.canSearch) throw new Fault("The perfect engine needs the program, and this page has none behind it. A proof plays as well.");
  const player = { kind: "engine-4", how: "searched", side: OTHER[you], members: [] };
  player.promise = `${names[player.side]} plays perfectly, as the engine has searched it.`;
  player.reply = async (now, stop, told) => {
    const found = await searched(board, now, source, facts, stop, told);
    const best = facts.best(now), [first] = best.length ? best : found ? [found] : [chooseBySearch(board, now, AHEAD["engine-3"])];
    return { letter: first, words: best.length ? "" : "the search ended before all was known" };
  };
  return player;
}

// Searches until a best move is known. The letter of the best move so far, where some are known.
async function searched(board, letters, source, facts, stop, told) {
  const enough = new AbortController(), end = () => enough.abort();
  let settling = 0;
  stop.addEventListener("abort", end);
  const look = () => {
    told();
    if (!settling && openLetters(board, letters).some(letter => facts.ofMove(letters, letter).value === "win")) settling = setTimeout(end, SETTLED);
  };
  try {
    await source.known(board, letters, facts, enough.signal);
    look();
    await source.search(board, letters, facts, enough.signal, look, "g");
  } catch (fault) {
    if (!enough.signal.aborted) throw fault;
  } finally {
    clearTimeout(settling);
  }
  const [first] = facts.ranked(letters);
  return facts.ofMove(letters, first).value ? first : "";
}

// The members of a plan that was told, each with the squares that it owns.
export function membersOf(told) {
  return told.lines.filter(line => / owns /.test(line)).map(line => line.split(" owns "))
    .map(([name, squares]) => ({ name, squares: squares.split(" ") }));
}
