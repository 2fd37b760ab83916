// A thermostat, which hears the temperatures from an injector, a line each:
//
//     bp run examples/thermostat.js examples/thermostat.temperatures
//     sensor | bp run examples/thermostat.js /dev/stdin
//
// What is requested comes before the next temperature is taken from the queue, and a request that is blocked waits for one. There
// is one injector, and the script enqueues nothing, so every run prints the same text, however late a line comes. `live.sh` feeds this
// program line by line.
const on = bp.Event("heat", "on");
const off = bp.Event("heat", "off");
const temperatures = bp.EventSet("temperatures", e => e.name === "temperature");
const cold = temperatures.and(bp.EventSet("below 19", e => e.data < 19));
const warm = temperatures.and(bp.EventSet("above 21", e => e.data > 21));

bp.registerBThread("Thermostat", () => {
  while (true) {
    bp.sync({waitFor: cold});
    bp.sync({request: on});
    bp.sync({waitFor: warm});
    bp.sync({request: off});
  }
});

// Once it is lit, the burner stays so for two temperatures.
bp.registerBThread("Spare the burner", () => {
  while (true) {
    bp.sync({waitFor: on});
    for (let heard = 0; heard < 2; heard++) bp.sync({waitFor: temperatures, block: off});
  }
});

bp.registerBThread("Report", () => {
  while (true) {
    bp.sync({waitFor: on});
    let heard = 0;
    while (bp.sync({waitFor: [temperatures, off]}) !== off) heard++;
    bp.log.info("on for " + heard + " temperatures");
  }
});
