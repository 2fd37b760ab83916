// Tic-tac-toe, after Harel, Marron and Weiss: each rule of the game is a b-thread, and so is each player. The players know no
// rule at all, they ask for every square at each move, and what the rules leave is legal. Where several squares are left, the
// seed of the run picks one: each seed is a game.
//
//   0 1 2
//   3 4 5
//   6 7 8
const marks = ["X", "O"];
const squares = [0, 1, 2, 3, 4, 5, 6, 7, 8];
const lines = [[0, 1, 2], [3, 4, 5], [6, 7, 8], [0, 3, 6], [1, 4, 7], [2, 5, 8], [0, 4, 8], [2, 4, 6]];

// The moves of a mark on these squares. Lists never change, so that a longer list is a new one.
const moves = (mark, places) => {
  let found = [];
  for (const place of places) found = found.concat(bp.Event(mark, place));
  return found;
};
const all = moves("X", squares).concat(moves("O", squares));
const draw = bp.Event("draw");
const wins = bp.EventSet("wins", e => e.name === "wins");
const over = wins.or(draw);

marks.forEach(mark => bp.registerBThread("Player " + mark, () => {
  while (true) bp.sync({request: moves(mark, squares), interrupt: over});
}));

bp.registerBThread("X begins, and they take turns", () => {
  while (true) {
    bp.sync({waitFor: moves("X", squares), block: moves("O", squares)});
    bp.sync({waitFor: moves("O", squares), block: moves("X", squares)});
  }
});

squares.forEach(place => bp.registerBThread("Square " + place + " is taken once", () => {
  const here = moves("X", [place]).concat(moves("O", [place]));
  bp.sync({waitFor: here});
  bp.sync({block: here});
}));

// Three moves of one mark on one line win. A move may fill two lines, and then both ask for the same event, which comes once.
marks.forEach(mark => lines.forEach(line => bp.registerBThread(mark + " on the line " + line[0] + line[1] + line[2], () => {
  for (let i = 0; i < 3; i++) bp.sync({waitFor: moves(mark, line)});
  bp.sync({request: bp.Event("wins", mark), block: all.concat(draw)});
})));

bp.registerBThread("Nine moves without a win are a draw", () => {
  for (let i = 0; i < 9; i++) bp.sync({waitFor: all});
  bp.sync({request: draw, interrupt: wins});
});

// The board with one more mark.
const marked = (board, place, mark) => {
  let next = [];
  for (let i = 0; i < board.length; i++) next = next.concat(i === place ? mark : board[i]);
  return next;
};

bp.registerBThread("Board", () => {
  let board = [".", ".", ".", ".", ".", ".", ".", ".", "."];
  let e = bp.sync({waitFor: all});
  while (e.name === "X" || e.name === "O") {
    board = marked(board, e.data, e.name);
    e = bp.sync({waitFor: [all, over]});
  }
  for (let i = 0; i < 9; i += 3) bp.log.info(board[i] + board[i + 1] + board[i + 2]);
});
