// Black's answers by a plan, as docs/RULES.md says them, where no program is at hand.
import { LETTERS, columnsOf, squareOf } from "./game.js";

const up = (square, rows = 1) => square[0] + (Number(square.slice(1)) + rows);
const span = (low, top) => Array.from({ length: top.slice(1) - low.slice(1) + 1 }, (_, k) => up(low, k));
const partsOf = member => member.slice(3).replace(/-/g, ",").split(",");

// The squares that a member owns.
export function zoneOf(member) {
  const [a, b, c, d] = partsOf(member);
  switch (member.slice(0, 2)) {
    case "CE": return [a, up(a)];
    case "BI": return [a, b];
    case "LI": return [...span(a, b), ...span(c, d)];
    case "HI": return [...span(a, up(a, 2)), ...span(b, up(b, 2))];
    case "BC": return [a, b, up(b), c];
    default: return [];
  }
}

// Black's square in a member's zone after White's. `isEmpty` says it of a square at the position after White's move.
function answerIn(member, square, isEmpty) {
  const [a, b, c, d] = partsOf(member);
  switch (member.slice(0, 2)) {
    case "CE": return up(a);
    case "BI": return square === a ? b : a;
    case "LI": {
      if (square !== b && square !== d) return up(square);
      return square === b ? span(c, d).find(isEmpty) : span(a, b).find(isEmpty);
    }
    case "HI": {
      const other = square[0] === a[0] ? b : a, own = square[0] === a[0] ? a : b;
      if (square === own) return isEmpty(other) ? up(own) : up(other, 2);
      return square === up(own) ? up(own, 2) : other;
    }
    case "BC": {
      if (square === c) return b;
      if (square === up(b)) return a;
      return isEmpty(c) ? c : up(b);
    }
  }
}

// The letter of Black's answer to White's last move, by a plan that was made before.
export function answerByPlan(board, members, letters) {
  const square = squareOf(board, letters.slice(0, -1), letters.slice(-1)), columns = columnsOf(board, letters);
  const isEmpty = name => columns[LETTERS.indexOf(name[0])].length < Number(name.slice(1));
  const member = members.find(one => zoneOf(one).includes(square));
  return member && answerIn(member, square, isEmpty)[0];
}

// A member as a mirror shows it. Members without a zone answer nothing, and are left out.
export function mirroredPlan(board, members) {
  const turned = name => LETTERS[board.cols - 1 - LETTERS.indexOf(name[0])] + name.slice(1);
  return members.filter(member => zoneOf(member).length).map(member => {
    const rule = member.slice(0, 2), parts = partsOf(member).map(turned);
    if (rule === "LI") return `LI:${parts[2]}-${parts[3]},${parts[0]}-${parts[1]}`;
    return `${rule}:${(rule === "BC" ? parts : parts.reverse()).join()}`;
  });
}
