// A crossing of two roads. Cars and the ticks of a clock come from outside, in the order below; a car whose light is red waits
// in the queue, and those behind it may pass. What the lights do is the sum of small rules, put together with sets of events.
const roads = ["north", "east"];

const tick = bp.Event("tick");
const green = road => bp.Event("green", road);
const red = road => bp.Event("red", road);
const greens = bp.EventSet("greens", e => e.name === "green");
const cars = bp.EventSet("cars", e => e.name === "car");
const carsOn = road => cars.and(bp.EventSet("on the road " + road, e => e.data.road === road));

roads.forEach(road => {
  // A light wants to be green, whatever the other one does, and stays so until the next tick.
  bp.registerBThread("Light " + road, () => {
    while (true) {
      bp.sync({request: green(road)});
      bp.sync({waitFor: tick});
      bp.sync({request: red(road)});
    }
  });

  bp.registerBThread("Stop at red " + road, () => {
    while (true) {
      bp.sync({waitFor: green(road), block: carsOn(road)});
      bp.sync({waitFor: red(road)});
    }
  });
});

bp.registerBThread("One green at a time", () => {
  while (true) {
    const e = bp.sync({waitFor: greens});
    bp.sync({waitFor: red(e.data), block: greens});
  }
});

// Blocks every green but that of the road whose turn it is.
bp.registerBThread("Taking turns", () => {
  while (true) {
    for (const road of roads) bp.sync({waitFor: green(road), block: greens.and(green(road).negate())});
  }
});

// Not a rule, but a check of all of them: had a car passed at red, the run would end here.
bp.registerBThread("Watch", () => {
  let open = "none";
  while (true) {
    const e = bp.sync({waitFor: [greens, cars]});
    if (e.name === "green") open = e.data;
    else bp.ASSERT(e.data.road === open, "a car passed at red");
  }
});

const car = (plate, road) => bp.Event("car", {plate: plate, road: road});
const outside = [
  car("A", "east"), car("B", "north"), car("C", "east"), tick, car("D", "north"), car("E", "east"), tick, tick
];
outside.forEach(e => bp.enqueueExternalEvent(e));
