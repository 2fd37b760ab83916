// A railway crossing with two tracks. The barrier goes down for the first train that approaches, and up behind the last one. It
// carries out its orders one after the other, and so it still goes up where a train came between the order and the deed; that
// train may be inside by then. Most schedules go well, and no run of a few seeds shows it: of those from 0 on, 121 is the first
// under which the requirement is violated. This seed, or the log of its run, is the whole report of the fault.
const tracks = ["north", "south"];

const lower = bp.Event("lower");
const raise = bp.Event("raise");
const named = name => bp.EventSet(name, e => e.name === name);

tracks.forEach(track => bp.registerBThread("Train " + track, () => {
  for (const name of ["approach", "enter", "leave"]) bp.sync({request: bp.Event(name, track)});
}));

// All but the first one.
const rest = list => {
  let left = [];
  for (let i = 1; i < list.length; i++) left = left.concat(list[i]);
  return left;
};

bp.registerBThread("Barrier", () => {
  let near = 0;
  let orders = [];
  while (true) {
    const e = bp.sync({request: orders.length > 0 ? orders[0] : [], waitFor: [named("approach"), named("leave")]});
    if (e.name === "approach") {
      near++;
      if (near === 1) orders = orders.concat(lower);
    } else if (e.name === "leave") {
      near--;
      if (near === 0) orders = orders.concat(raise);
    } else orders = rest(orders);
  }
});

bp.registerBThread("Trains enter where the barrier is down", () => {
  while (true) {
    bp.sync({waitFor: lower, block: named("enter")});
    bp.sync({waitFor: raise});
  }
});

bp.registerBThread("Requirement: the barrier is down while a train is inside", () => {
  let inside = 0;
  while (true) {
    const e = bp.sync({waitFor: [named("enter"), named("leave"), raise]});
    if (e.name === "enter") inside++;
    else if (e.name === "leave") inside--;
    else bp.ASSERT(inside === 0, "raised with " + inside + " inside");
  }
});
