// What the page shows, and what a person does on it.
import { Board, Fault, LETTERS, OTHER, columnsOf, endOf, linkOf, openLetters, readLink, readMoves, sideOf, squareOf } from "./game.js";
import { Facts, VERBS, lemmasOf, moveWords, valueLine } from "./values.js";
import { MEN, drawBoard, pngBlob, saveAs, svgBlob } from "./picture.js";
import { Shelf } from "./shelf.js";
import { Server, isGiven, isWhole } from "./server.js";
import { OPPONENTS, membersOf, opponentOf } from "./players.js";
import { Tried, columnLabel, drawGraph, drawList } from "./history.js";

const DATA = JSON.parse(document.getElementById("data").textContent);
const source = DATA.boards ? new Shelf(DATA) : new Server(DATA);
const byId = name => document.getElementById(name);
const isDark = window.matchMedia("(prefers-color-scheme: dark)");
const everything = new Map();

// The game that is shown. `told` is the plan at the position `planned`, `resigned` the side that has given up.
const game = { board: Board.read("7x6"), letters: "", you: "W", opponent: null, resigned: "", hint: "", marked: [], plan: null,
  tried: new Tried(), looking: new AbortController(), replying: null };

const names = () => MEN[byId("men").value].names;
const factsNow = () => everything.get(game.board.word) || everything.set(game.board.word, new Facts(game.board)).get(game.board.word);
// What the program says of White and Black, by the names that the sides have here.
const named = text => text.replace(/\b(White|Black)\b/g, word => names()[word[0]]);
const say = text => { byId("status").textContent = text; };
function element(name, text, inner = []) {
  const made = document.createElement(name);
  if (text) made.textContent = text;
  made.append(...inner);
  return made;
}

// What is under way, and since when.
const works = new Map();
function begin(words) {
  const key = {};
  works.set(key, { words, since: Date.now() });
  tellWorks();
  showValue();
  return () => { works.delete(key); tellWorks(); };
}
function tellWorks() {
  byId("work").hidden = !works.size;
  byId("since").textContent = [...works.values()].map(({ words, since }) => `${words} since ${Math.round((Date.now() - since) / 1000)} s`).join("; ");
}
setInterval(tellWorks, 500);

// How the game ended, in words, or an empty text.
function resultWords() {
  const end = endOf(game.board, game.letters);
  if (end && end.winner) return `${names()[end.winner]} has ${game.board.length === 5 ? "five" : "four"} in a line and wins with move ${game.letters.length}.`;
  if (end) return "The board is full and nobody has a line: a draw.";
  return game.resigned ? `${names()[game.resigned]} has resigned: ${names()[OTHER[game.resigned]]} wins.` : "";
}

// Shows all that is known.
function show() {
  const { board, letters, opponent } = game, facts = factsNow(), hasValues = byId("values").checked, line = game.tried.later(letters);
  const result = resultWords();
  showBoard(facts, hasValues);
  showValue();
  showMoves(facts, hasValues && !result);
  drawList(byId("list"), { board, tried: game.tried, facts: hasValues && facts, letters, go: moves => goTo(moves) });
  if (hasValues) drawGraph(byId("graph"), { board, facts, letters, line, names: names(), go: moves => goTo(moves) });
  byId("graph").hidden = !hasValues;
  byId("back").disabled = !letters;
  byId("forth").disabled = line === letters;
  byId("hint").disabled = byId("resign").disabled = Boolean(result);
  byId("resign").hidden = !opponent;
}
// One line on the position: how the game ended, or the strongest that is known.
function showValue() {
  const { letters } = game, verdict = byId("values").checked ? factsNow().verdict(letters) : null, result = resultWords();
  const value = verdict && valueLine(verdict, sideOf(letters), names());
  byId("value").replaceChildren(result || value || (verdict && works.size ? "What the position is worth isn't known yet." : ""), " ",
    ...(verdict?.proof && !result ? [proofLink(verdict.proof, "Its proof")] : []));
}
function pictureOf(labels = null) {
  const { board, letters, marked, hint } = game, facts = factsNow(), end = endOf(board, letters), best = facts.best(letters);
  const heads = {}, open = openLetters(board, letters);
  if (byId("values").checked)
    for (const letter of open) {
      const move = facts.ofMove(letters, letter), words = moveWords(move, names());
      if (words) heads[letter] = { ...words, value: move.value, isBest: best.includes(letter) && best.length < open.length };
    }
  return drawBoard({ board, letters, men: byId("men").value, scheme: isDark.matches ? "dark" : "light", heads, fills: fillsNow(), marked, hint,
    end, hasThreats: byId("threats").checked, labels });
}
function showBoard(facts, hasValues) {
  const { board, letters } = game, columns = columnsOf(board, letters), labels = {}, focused = document.activeElement.dataset?.column;
  for (const letter of board.letters) {
    const words = hasValues && openLetters(board, letters).includes(letter) && moveWords(facts.ofMove(letters, letter), names());
    labels[letter] = columnLabel(board, letter, columns[LETTERS.indexOf(letter)], names(), Boolean(words), words);
  }
  byId("board").innerHTML = pictureOf(labels);
  // Whoever plays by keys stays on the column.
  if (focused) byId("board").querySelector(`[data-column=${focused}]`)?.focus();
}
// In a game against a plan its own zones are shown, else those of a plan at this position.
const planNow = () => game.opponent && game.opponent.kind === "plan" ? game.opponent : game.plan && game.plan.letters === game.letters ? game.plan : null;
function fillsNow() {
  const fills = new Map();
  (planNow()?.members || []).forEach((member, k) => member.squares.forEach(name =>
    fills.set(name, [DATA.colours[member.name.slice(0, 2)] || "#f7f5ec", `${member.name.slice(0, 2)} ${k + 1}`])));
  return fills;
}
function showMoves(facts, hasValues) {
  const { board, letters } = game, best = facts.best(letters);
  byId("known").replaceChildren(...(hasValues ? facts.ranked(letters) : []).map(letter => {
    const move = facts.ofMove(letters, letter), link = element("a", squareOf(board, letters, letter));
    link.href = "#";
    link.addEventListener("click", event => { event.preventDefault(); play(letter); });
    const row = element("tr", "", [element("td", "", [link]), element("td", "", valuePieces(move))]);
    row.className = best.includes(letter) ? "best" : "";
    return row;
  }));
}
const proofLink = (number, words) => Object.assign(element("a", words), { href: `proof/${number}`, target: "_blank" });
// A move's value, with a link to its proof.
function valuePieces(move) {
  const words = moveWords(move, names());
  if (!words) return ["..."];
  if (words.how === "searched") return [`${words.word}${words.end ? ` in ${words.end}` : ""}, searched`];
  const proof = move.proof ? [": ", proofLink(move.proof, lemmasOf(move.lemmas))] : move.by ? [" in the whole board's proof"] : [];
  return [`${words.word}, proved`, ...proof, words.end ? `; in ${words.end}, searched` : ""];
}

// Looks at the position that is shown: plan, whole proofs, the engine, proofs of each move, and the moves before.
async function look() {
  game.looking.abort();
  game.looking = new AbortController();
  const { signal } = game.looking;
  showPlan(signal).catch(failed(signal));
  if (byId("values").checked) await lookAtValues(signal).catch(failed(signal));
}
const failed = signal => fault => {
  if (signal.aborted || isGiven(fault)) return;
  if (!(fault instanceof Fault)) console.error(fault);
  say(fault.message);
};
async function lookAtValues(signal) {
  const { board, letters } = game, facts = factsNow(), told = () => { if (!signal.aborted) show(); };
  const during = async (words, work) => {
    const done = begin(words);
    try { return await work(); } finally { done(); told(); }
  };
  await during("Looking in the proofs", () => source.known(board, letters, facts, signal));
  const isKnown = () => isWhole(board, letters, facts) && openLetters(board, letters).every(letter => facts.ofMove(letters, letter).end);
  if (!endOf(board, letters) && source.canSearch && !isKnown())
    await during("Searching the moves", () => source.search(board, letters, facts, signal, told));
  if (source.canProve && !endOf(board, letters)) await proveAll(board, letters, facts, signal, during);
  await review(facts, signal, during);
}
// Looks for proofs, one after another, the best moves first. Where none is found, the position is too hard, and so are
// the moves from it that aren't won at once.
async function proveAll(board, letters, facts, signal, during) {
  for (const next of ["", ...facts.ranked(letters)]) {
    if (signal.aborted || facts.of(letters + next).proved?.proof || facts.of(letters + next).proved?.by) continue;
    const what = next ? `Looking for a proof of ${squareOf(board, letters, next)}` : "Looking for a proof";
    if (!await during(what, () => source.prove(board, letters + next, facts, signal)) && !next) say("No proof of this position was found in time.");
  }
}
// Searches the positions before, from the last on, until one takes too long.
async function review(facts, signal, during) {
  const { board } = game, line = game.tried.later(game.letters);
  for (let k = line.length - 1; k >= 0 && !signal.aborted; k--) {
    const before = line.slice(0, k);
    if (facts.verdict(before).value && isWhole(board, before, facts)) continue;
    await during(`Looking at move ${k + 1}`, async () => {
      await source.known(board, before, facts, signal);
      if (source.canSearch && !isWhole(board, before, facts)) await source.search(board, before, facts, signal, () => {});
    });
    if (source.canSearch && !isWhole(board, before, facts)) return;
  }
}

async function showPlan(signal) {
  const { board, letters, opponent } = game, over = endOf(board, letters);
  byId("members").replaceChildren();
  byId("lines").replaceChildren();
  if (opponent && opponent.told) {
    byId("planned").textContent = `The plan by which ${names().B} answers.`;
    return showTold(opponent.told, opponent.members);
  }
  if (over || sideOf(letters) === "B") {
    byId("planned").textContent = over ? "The game has ended." : `A plan begins where ${names().W} is to move.`;
    return;
  }
  byId("planned").textContent = `Looking for a plan of ${names().B}'s...`;
  const told = await source.explain(board, letters, signal);
  if (signal.aborted) return;
  byId("planned").textContent = told.found ? named(told.words[0]) : `There is no plan of ${names().B}'s here.`;
  if (!told.found) return;
  game.plan = { letters, members: membersOf(told) };
  factsNow().noteClaim(letters, "W-");
  showTold(told, game.plan.members);
  show();
}
function showTold(told, members) {
  byId("members").replaceChildren(...members.map((member, k) => element("li", `${k + 1} ${member.name}`)));
  byId("lines").replaceChildren(...told.words.filter(line => /^ {3}/.test(line)).map(line => {
    const item = element("li", named(line.trim())), squares = line.match(/\b[a-j](10|[1-9])\b/g) || [];
    item.tabIndex = 0;
    const mark = list => () => { game.marked = list; showBoard(factsNow(), byId("values").checked); };
    for (const event of ["mouseenter", "focus"]) item.addEventListener(event, mark(squares));
    for (const event of ["mouseleave", "blur"]) item.addEventListener(event, mark([]));
    return item;
  }));
}

// A new position. It is a place to which the browser goes back, or it takes that of the one before.
function arrive(letters, { isNew = true } = {}) {
  Object.assign(game, { letters, hint: "", marked: [], resigned: "" });
  game.tried.note(letters);
  const link = linkOf(game.board, letters);
  if (location.hash !== link) history[isNew ? "pushState" : "replaceState"]({ letters }, "", link);
  byId("size").value = game.board.word;
  byId("moves").value = letters;
  show();
}
const turnWords = () => resultWords() || `${names()[sideOf(game.letters)]} to move.`;
const isReplying = () => Boolean(game.replying);
const isTheirs = () => Boolean(game.opponent) && sideOf(game.letters) === game.opponent.side;

function play(letter) {
  const { board, letters } = game, column = columnsOf(board, letters)[LETTERS.indexOf(letter)];
  if (column === undefined) return;
  if (resultWords()) return say(`${resultWords()} The game is over.`);
  if (isReplying()) return say(`${names()[sideOf(letters)]} is still being answered for.`);
  if (isTheirs()) return reply({ begins: true });
  if (column.length === board.rows) return say(`Column ${letter} is full.`);
  arrive(letters + letter);
  say(turnWords());
  return isTheirs() && !endOf(board, game.letters) ? reply() : look();
}
// The opponent plays: it answers your move, or begins, and then its move may be a new place to go back to.
async function reply({ begins = false } = {}) {
  const { board, letters, opponent } = game, stop = new AbortController(), { signal } = stop;
  game.looking.abort();
  game.replying = stop;
  const done = begin(`${names()[opponent.side]} thinks`);
  try {
    const { letter, words } = await opponent.reply(letters, signal, () => { if (game.replying === stop) show(); });
    if (game.replying !== stop) return;
    game.replying = null;
    // What the opponent plays by shows the same behind each of its answers.
    if (opponent.claim) factsNow().noteClaim(letters + letter, opponent.claim);
    arrive(letters + letter, { isNew: begins && letters });
    const square = squareOf(board, letters, letter), side = names()[opponent.side];
    const told = begins ? `${side} plays ${square}` : `${squareOf(board, letters.slice(0, -1), letters.slice(-1))} was answered by ${square}`;
    say([`${told}${words ? `, ${words}` : ""} (${opponent.how}).`, resultWords()].join(" "));
    look();
  } catch (fault) {
    if (game.replying !== stop) return;
    game.replying = null;
    say(isGiven(fault) ? "Stopped. A click on the board lets the game go on." : fault.message);
  } finally {
    done();
    show();
  }
}
// Ends what is under way for the position that is left.
function leave() {
  game.looking.abort();
  const { replying } = game;
  game.replying = null;
  if (replying) replying.abort();
}
// Goes to a position of this game, or of a variation of it. The opponent stays, where it can play on from there.
function goTo(letters, { isNew = true } = {}) {
  leave();
  arrive(letters, { isNew });
  if (game.opponent && !letters.startsWith(game.opponent.from || "")) dismiss("The opponent plays from a later position on: nobody answers now.");
  else say(isTheirs() && !resultWords() ? `${turnWords()} A click on the board lets the game go on.` : turnWords());
  return look();
}
function dismiss(words) {
  game.opponent = null;
  byId("by").value = "";
  say(words);
  show();
}
// Takes back a move, or against an opponent the whole turn: your move and the answer.
function back() {
  const { letters, opponent } = game, least = (opponent?.from || "").length;
  let length = letters.length - 1;
  if (opponent) while (length > least && "WB"[length % 2] === opponent.side) length--;
  if (!letters || length < least || opponent && "WB"[length % 2] === opponent.side) return say("There is no move of yours to take back.");
  goTo(letters.slice(0, length));
}
function forward() {
  const line = game.tried.later(game.letters);
  let length = Math.min(game.letters.length + 1, line.length);
  if (game.opponent) while (length < line.length && "WB"[length % 2] === game.opponent.side) length++;
  if (length > game.letters.length) goTo(line.slice(0, length));
}

// Sets up who answers, from the position that is shown.
async function choose(kind) {
  leave();
  game.opponent = null;
  byId("by").value = kind;
  if (!kind) { say(turnWords()); show(); return look(); }
  const stop = new AbortController(), done = begin("Setting up the opponent");
  game.replying = stop;
  try {
    const { board, letters, you } = game;
    const opponent = await opponentOf(kind, { board, letters, you, source, facts: factsNow(), names: names(), signal: stop.signal });
    if (game.replying !== stop) return;
    Object.assign(game, { opponent, you: OTHER[opponent.side], replying: null });
    byId("you").value = game.you;
    say(`${opponent.promise} You have ${names()[game.you]}.`);
    if (opponent.claim) factsNow().noteClaim(letters, opponent.claim);
    if (isTheirs() && !resultWords()) return reply({ begins: true });
    look();
  } catch (fault) {
    if (game.replying !== stop) return;
    game.replying = null;
    dismiss(isGiven(fault) ? "Stopped: nobody answers." : fault.message);
    look();
  } finally {
    done();
    show();
  }
}
function newGame() {
  leave();
  game.tried = new Tried();
  arrive("");
  choose(byId("by").value);
}
// Another board, or another position on it.
function setUp(board, letters, { isNew = true } = {}) {
  const isSame = board.word === game.board.word;
  leave();
  if (!isSame || !game.tried.next.size) game.tried = new Tried();
  Object.assign(game, { board, opponent: isSame ? game.opponent : null });
  if (!isSame) byId("by").value = "";
  goTo(letters, { isNew });
}
function resign() {
  leave();
  game.resigned = game.you;
  say(resultWords());
  show();
}
async function hint() {
  const { board, letters } = game, facts = factsNow();
  if (!facts.best(letters).length) {
    const stop = new AbortController(), done = begin("Looking for the best move"), { signal } = stop;
    game.looking.abort();
    game.looking = stop;
    try {
      await source.known(board, letters, facts, signal);
      const told = () => { if (facts.best(letters).length && game.letters === letters) { mark(); } };
      told();
      if (source.canSearch && !facts.best(letters).length) await source.search(board, letters, facts, signal, told);
    } catch (fault) {
      failed(signal)(fault);
    } finally {
      done();
    }
  }
  if (game.letters === letters) mark();
  function mark() {
    const [best] = facts.best(letters).length ? facts.best(letters) : facts.ranked(letters).filter(letter => facts.ofMove(letters, letter).value);
    if (!best) return say("No best move is known here yet.");
    game.hint = best;
    const words = moveWords(facts.ofMove(letters, best), names());
    say(`Hint: ${squareOf(board, letters, best)} ${words.word}${words.end ? ` in ${words.end}` : ""} (${words.how}).`);
    show();
  }
}

// The page's address names a board and moves. One that is wrong keeps what is shown.
function fromLink(isFirst = false) {
  try {
    const { board, letters } = readLink(location.hash);
    setUp(board, letters, { isNew: false });
  } catch (fault) {
    if (!(fault instanceof Fault)) throw fault;
    history.replaceState(null, "", linkOf(game.board, game.letters));
    if (isFirst) setUp(game.board, "", { isNew: false });
    say(`This link is wrong: ${fault.message}. The ${game.letters ? "last" : "empty"} board stays.`);
  }
}
function large(isLarge = !document.body.classList.contains("large")) {
  document.body.classList.toggle("large", isLarge);
  byId("large").setAttribute("aria-pressed", isLarge);
}
function stop() {
  game.looking.abort();
  game.replying?.abort();
  say("Stopped.");
}
function typed(event) {
  event.preventDefault();
  try {
    const board = Board.read(byId("size").value);
    setUp(board, readMoves(board, byId("moves").value));
  } catch (fault) {
    if (!(fault instanceof Fault)) throw fault;
    say(`That can't be set up: ${fault.message}.`);
  }
}
function pressed(event) {
  if (/INPUT|SELECT|BUTTON|TEXTAREA|SUMMARY/.test(event.target.tagName) || event.ctrlKey || event.altKey || event.metaKey) return;
  const column = event.target.closest?.("[data-column]"), { key } = event;
  if (key === "ArrowLeft") back();
  else if (key === "ArrowRight") forward();
  else if ((key === "Enter" || key === " ") && column) play(column.dataset.column);
  else if (/^[a-j]$/i.test(key)) play(key.toLowerCase());
  else if (/^\d$/.test(key)) play(LETTERS["1234567890".indexOf(key)]);
  else if (key === "?") hint();
  else if (key === "l" || key === "L") large();
  else if (key === "Escape") large(false);
  else return;
  event.preventDefault();
}
function fillForms() {
  byId("by").replaceChildren(...Object.entries(OPPONENTS).map(([value, words]) => Object.assign(element("option", words), {
    value, disabled: !source.canSearch && (value === "engine-4" || value === "threat") })));
  byId("strategy").href += DATA.ending || "";
  byId("rules").replaceChildren(...Object.entries(DATA.rules).map(([letters, name]) => {
    const link = element("a", name), swatch = element("span");
    Object.assign(link, { href: `rules${DATA.ending || ""}#${name.toLowerCase()}`, target: "_blank" });
    swatch.className = "swatch";
    swatch.style.background = DATA.colours[letters] || "transparent";
    return element("li", "", [swatch, `${letters} `, link]);
  }));
}
function listen() {
  const on = (name, event, call) => byId(name).addEventListener(event, call);
  on("form", "submit", typed);
  on("game", "submit", event => event.preventDefault());
  for (const [name, call] of Object.entries({ back, forth: forward, hint, resign, anew: newGame, stop, large: () => large() })) on(name, "click", () => call());
  on("by", "change", () => choose(byId("by").value));
  on("you", "change", () => { game.you = byId("you").value; choose(byId("by").value); });
  on("men", "change", () => { say(turnWords()); show(); });
  for (const name of ["values", "threats"]) on(name, "change", () => { show(); if (!isReplying()) look(); });
  on("svg", "click", () => saveAs("position.svg", svgBlob(pictureOf())));
  on("png", "click", async () => saveAs("position.png", await pngBlob(pictureOf())));
  on("board", "click", event => {
    const cell = event.target.closest("[data-column]");
    if (cell) play(cell.dataset.column);
  });
  document.addEventListener("keydown", pressed);
  isDark.addEventListener("change", show);
  window.addEventListener("popstate", () => { if (location.hash !== linkOf(game.board, game.letters)) fromLink(); });
}
fillForms();
listen();
fromLink(true);
