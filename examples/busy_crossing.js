// A crossing of four roads, each with a light. The cars come from one injector, and another one switches the lights:
//
//     bp run examples/busy_crossing.js examples/busy_crossing.cars examples/busy_crossing.lights
//
// A car whose light is red waits in the queue, and those behind it may pass. Which injector is heard first is no matter of the
// program, so its runs differ, but in each of them the cars of a road pass in their order and at green, and a jam follows at once
// on each car with more than three people. `busy_crossing.awk` has these rules, by which `check.sh` looks at every run;
// `busy_crossing.trace` is the run in which all cars come before the first light.
const roads = ["north", "south", "east", "west"];

const carsFrom = road => bp.EventSet("cars from " + road, e => e.name === "car" && e.data.from === road);
const fullFrom = road => carsFrom(road).and(bp.EventSet("of more than three", e => e.data.count > 3));

roads.forEach(road => {
  // Counts the people that came by this road.
  bp.registerBThread("count " + road, () => {
    let people = 0;
    while (true) {
      const e = bp.sync({waitFor: carsFrom(road)});
      people += e.data.count;
      bp.log.info(road + " " + people);
    }
  });

  // Is red at first.
  bp.registerBThread("light " + road, () => {
    while (true) {
      bp.sync({waitFor: bp.Event("green", road), block: carsFrom(road)});
      bp.sync({waitFor: bp.Event("red", road)});
    }
  });

  // What is requested comes before what waits in the queue.
  bp.registerBThread("guard " + road, () => {
    while (true) {
      bp.sync({waitFor: fullFrom(road)});
      bp.sync({request: bp.Event("jam", {from: road})});
    }
  });
});
