// A robot that cleans a room, for the strategy `priority`, in the manner of Brooks: each behaviour is a b-thread that asks for
// its own next action, with a priority, and the most urgent one that is asked for is taken. A behaviour knows no other one, and
// what it could not do now it does later. What the sensors tell, and the ticks of the clock, come from outside.
const bump = bp.Event("bump");
const dirt = bp.Event("dirt");
const lowBattery = bp.Event("low battery");
const tick = bp.Event("tick");

const forward = bp.Event("forward");
const brush = bp.Event("brush");
const back = bp.Event("back");
const turn = bp.Event("turn");
const dock = bp.Event("dock");
const actions = [forward, brush, back, turn, dock];

bp.registerBThread("Wander", () => {
  while (true) bp.sync({request: forward, interrupt: dock}, 0);
});

bp.registerBThread("Brush dirt away", () => {
  while (true) {
    bp.sync({waitFor: dirt, interrupt: dock});
    for (let i = 0; i < 2; i++) bp.sync({request: brush, interrupt: dock}, 1);
  }
});

bp.registerBThread("Charge in time", () => {
  bp.sync({waitFor: lowBattery});
  bp.sync({request: dock}, 2);
});

bp.registerBThread("Leave obstacles", () => {
  while (true) {
    bp.sync({waitFor: bump, interrupt: dock});
    bp.sync({request: back, interrupt: dock}, 3);
    bp.sync({request: turn, interrupt: dock}, 3);
  }
});

bp.registerBThread("One action a tick", () => {
  while (true) {
    bp.sync({waitFor: tick, block: actions});
    bp.sync({waitFor: actions});
  }
});

const outside = [tick, dirt, tick, bump, tick, tick, tick, tick, dirt, bump, lowBattery, tick, tick, tick, tick];
outside.forEach(e => bp.enqueueExternalEvent(e));
