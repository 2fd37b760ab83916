// An elevator with an emergency. Calls, the ticks of the motor and smoke come from outside. A trip takes one tick a floor, and
// calls wait in the queue meanwhile. Smoke interrupts the cabin wherever it is: its b-thread ends there, and its handler starts
// another one that brings the cabin down.
const tick = bp.Event("tick");
const smoke = bp.Event("smoke");
const call = floor => bp.Event("call", floor);
const calls = bp.EventSet("calls", e => e.name === "call");

// The synchronisation points of a trip: each can be interrupted, and no call is heard at them. A function that calls bp.sync is
// like any other.
const next = e => bp.sync({request: e, block: calls, interrupt: smoke});
const pause = () => bp.sync({waitFor: tick, block: calls, interrupt: smoke});

// What is done about smoke where the cabin stands at this floor: the function has a copy of the floor that it was made with.
const handlerAt = floor => e => {
  bp.log.info(e.name + ", at floor " + floor);
  bp.enqueueExternalEvent(bp.Event("siren"));
  bp.registerBThread("Evacuation", () => {
    for (let below = floor - 1; below >= 0; below--) bp.sync({request: bp.Event("down", below)});
    bp.sync({request: bp.Event("open", 0)});
  });
};

bp.registerBThread("Cabin", () => {
  let floor = 0;
  while (true) {
    bp.setInterruptHandler(handlerAt(floor));
    const goal = bp.sync({waitFor: calls, interrupt: smoke}).data;
    while (floor !== goal) {
      pause();
      const direction = floor < goal ? "up" : "down";
      floor += floor < goal ? 1 : -1;
      next(bp.Event(direction, floor));
      bp.setInterruptHandler(handlerAt(floor));
    }
    next(bp.Event("open", floor));
    next(bp.Event("close", floor));
  }
});

bp.registerBThread("Nobody is called into smoke", () => {
  bp.sync({waitFor: smoke});
  bp.sync({block: calls});
});

const outside = [call(2), tick, call(0), tick, tick, smoke, tick, call(1)];
outside.forEach(e => bp.enqueueExternalEvent(e));
