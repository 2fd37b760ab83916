// A robot in a maze, for the strategy `ordered`: of each b-thread the first event that it requests and nobody blocks is taken,
// so that a list of requests is a list of preferences. The robot would rather go down than right, and right than up or left. It
// knows neither walls nor where it has been: these are rules, which block. Under `simple` it would stray.
//
//   S . # . .
//   # . # . #
//   . . . . .
//   . # # # .
//   . . . # G
const floor = [
  [1, 1, 0, 1, 1],
  [0, 1, 0, 1, 0],
  [1, 1, 1, 1, 1],
  [1, 0, 0, 0, 1],
  [1, 1, 1, 0, 1]
];
const goal = bp.Event("go", {x: 4, y: 4});

const go = (x, y) => bp.Event("go", {x: x, y: y});
const steps = bp.EventSet("steps", e => e.name === "go");
const isOutside = n => n < 0 || n > 4;
const walls = bp.EventSet("walls", e => isOutside(e.data.x) || isOutside(e.data.y) || floor[e.data.y][e.data.x] === 0);

bp.registerBThread("Robot", () => {
  let at = go(0, 0);
  while (at !== goal) {
    const x = at.data.x;
    const y = at.data.y;
    at = bp.sync({request: [go(x, y + 1), go(x + 1, y), go(x, y - 1), go(x - 1, y)]});
  }
  bp.log.info("there");
});

bp.registerBThread("Walls", () => {
  bp.sync({block: steps.and(walls)});
});

// A set grows by becoming part of a new one.
bp.registerBThread("Nowhere twice", () => {
  let been = bp.none.or(go(0, 0));
  while (true) been = been.or(bp.sync({waitFor: steps, block: been}));
});
