// Tic-tac-toe, for the strategy `priority`: X moves from outside, and O is played by tactics, a b-thread each, which ask for
// moves of their own and know neither the rules nor one another. Of what the rules leave, the most urgent move is made. A move of
// X that the rules don't allow stays in the queue, and is overtaken.
//
//   0 1 2
//   3 4 5
//   6 7 8
const marks = ["X", "O"];
const squares = [0, 1, 2, 3, 4, 5, 6, 7, 8];
const lines = [[0, 1, 2], [3, 4, 5], [6, 7, 8], [0, 3, 6], [1, 4, 7], [2, 5, 8], [0, 4, 8], [2, 4, 6]];
const urgency = {end: 100, win: 50, stop: 40};

const move = (mark, place) => bp.Event(mark, place);
// The moves of a mark on these squares. Lists never change, so that a longer list is a new one.
const moves = (mark, places) => {
  let found = [];
  for (const place of places) found = found.concat(move(mark, place));
  return found;
};
const all = moves("X", squares).concat(moves("O", squares));
const draw = bp.Event("draw");
const wins = bp.EventSet("wins", e => e.name === "wins");
const over = wins.or(draw);

// The rules.
bp.registerBThread("X begins, and they take turns", () => {
  while (true) {
    bp.sync({waitFor: moves("X", squares), block: moves("O", squares)});
    bp.sync({waitFor: moves("O", squares), block: moves("X", squares)});
  }
});

squares.forEach(place => bp.registerBThread("Square " + place + " is taken once", () => {
  const here = [move("X", place), move("O", place)];
  bp.sync({waitFor: here});
  bp.sync({block: here});
}));

marks.forEach(mark => lines.forEach(line => bp.registerBThread(mark + " on the line " + line[0] + line[1] + line[2], () => {
  for (let i = 0; i < 3; i++) bp.sync({waitFor: moves(mark, line)});
  bp.sync({request: bp.Event("wins", mark)}, urgency.end);
})));

bp.registerBThread("Nine moves are a draw", () => {
  for (let i = 0; i < 9; i++) bp.sync({waitFor: all});
  bp.sync({request: draw}, urgency.end - 1);
});

bp.registerBThread("Nothing comes after the end", () => {
  bp.sync({waitFor: over});
  bp.sync({block: bp.all});
});

// The tactics. Where a mark has two squares of a line, O asks for the third: to win, or to stop X. One that is taken by then is
// asked for in vain.
const without = (line, gap) => {
  let found = [];
  for (const place of line) found = place === gap ? found : found.concat(place);
  return found;
};
const third = (mark, line, gap, priority) => () => {
  for (let i = 0; i < 2; i++) bp.sync({waitFor: moves(mark, without(line, gap))});
  bp.sync({request: move("O", gap)}, priority);
};

lines.forEach(line => line.forEach(gap => {
  const where = " at " + gap + " on the line " + line[0] + line[1] + line[2];
  bp.registerBThread("Win" + where, third("O", line, gap, urgency.win));
  bp.registerBThread("Stop X" + where, third("X", line, gap, urgency.stop));
}));

// And where nothing is urgent: the centre, then the corners, then the sides.
[4, 0, 2, 6, 8, 1, 3, 5, 7].forEach((place, rank) => bp.registerBThread("Like " + place, () => {
  bp.sync({request: move("O", place)}, 9 - rank);
}));

// The board with one more mark.
const marked = (board, place, mark) => {
  let next = [];
  for (let i = 0; i < board.length; i++) next = next.concat(i === place ? mark : board[i]);
  return next;
};

bp.registerBThread("Board", () => {
  let board = [".", ".", ".", ".", ".", ".", ".", ".", "."];
  let e = bp.sync({waitFor: all});
  while (e.name === "X" || e.name === "O") {
    board = marked(board, e.data, e.name);
    e = bp.sync({waitFor: [all, over]});
  }
  for (let i = 0; i < 9; i += 3) bp.log.info(board[i] + board[i + 1] + board[i + 2]);
});

moves("X", [0, 4, 1, 3, 8]).forEach(e => bp.enqueueExternalEvent(e));
