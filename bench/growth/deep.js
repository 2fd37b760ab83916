// `size` b-threads that request events whose data differs at its second level alone, and that a predicate blocks.
// sizes 40 400 1600, events 2000
const size = 40;
const robot = number => () => {
  const move = bp.Event("move", {from: {x: number % 64, y: number}, to: {x: 1, y: 2}});
  bp.sync({request: move, waitFor: bp.Event("over")});
};
for (let i = 0; i < size; i++) bp.registerBThread("Robot " + i, robot(i));
bp.registerBThread("Rule", () => {
  bp.sync({block: bp.EventSet("moves", e => e.name === "move"), waitFor: bp.Event("over")});
});
bp.registerBThread("Clock", () => {
  for (let i = 0; i < 2000; i++) bp.sync({request: bp.Event("tick")});
  bp.sync({request: bp.Event("over")});
});
