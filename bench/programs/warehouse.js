// A warehouse of 100 cells, of which 60 robots make `size` moves each: 300 b-threads, and each move changes the block sets of two.
const size = 20;
const width = 10;
const height = 10;
const robots = 60;

const move = (robot, to, from) => bp.Event("move", {robot: robot, to: to, from: from});
const moves = bp.EventSet("moves", e => e.name === "move");
const into = cell => moves.and(bp.EventSet("into " + cell, e => e.data.to === cell));
const outOf = cell => moves.and(bp.EventSet("out of " + cell, e => e.data.from === cell));

const neighbours = cell => {
  const column = cell % width;
  const row = Math.floor(cell / width);
  let found = [];
  if (column > 0) found = found.concat(cell - 1);
  if (column < width - 1) found = found.concat(cell + 1);
  if (row > 0) found = found.concat(cell - width);
  if (row < height - 1) found = found.concat(cell + width);
  return found;
};

// A cell has room for one robot.
const registerCell = (cell, full) => {
  bp.registerBThread("Cell " + cell, () => {
    if (full) bp.sync({waitFor: outOf(cell), block: into(cell)});
    while (true) {
      bp.sync({waitFor: into(cell)});
      bp.sync({waitFor: outOf(cell), block: into(cell)});
    }
  });
};

const registerRobot = robot => {
  bp.registerBThread("Robot " + robot, () => {
    let here = robot;
    for (let i = 0; i < size; i++) {
      let ways = [];
      for (const next of neighbours(here)) ways = ways.concat(move(robot, next, here));
      here = bp.sync({request: ways}).data.to;
    }
  });
};

const registerWatch = cell => {
  bp.registerBThread("Watch " + cell, () => {
    let count = cell < robots ? 1 : 0;
    while (true) {
      const e = bp.sync({waitFor: [into(cell), outOf(cell)]});
      count += e.data.to === cell ? 1 : -1;
      bp.ASSERT(count === 0 || count === 1, count + " robots in cell " + cell);
    }
  });
};

const registerCounter = robot => {
  bp.registerBThread("Counter " + robot, () => {
    const own = moves.and(bp.EventSet("of " + robot, e => e.data.robot === robot));
    for (let i = 0; i < size; i++) bp.sync({waitFor: own});
    bp.log.info("robot " + robot + " has made its moves");
  });
};

for (let cell = 0; cell < width * height; cell++) registerCell(cell, cell < robots);
for (let robot = 0; robot < robots; robot++) registerRobot(robot);
for (let cell = 0; cell < width * height; cell++) registerWatch(cell);
for (let robot = 0; robot < 40; robot++) registerCounter(robot);
