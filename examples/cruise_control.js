// A cruise control, whose modes are b-threads. What the driver does, and the speeds that are measured, come from outside. The
// mode that holds a speed is interrupted where the driver brakes, sets another speed, or switches off: it ends wherever it
// stands, also where it asks for the throttle, and its handler says what was held and starts the mode that follows. The last
// b-thread is a requirement: once the driver has braked, no throttle without him.
const set = bp.Event("set");
const brake = bp.Event("brake");
const resume = bp.Event("resume");
const off = bp.Event("off");
const clutchDown = bp.Event("clutch", "down");
const clutchUp = bp.Event("clutch", "up");
const throttle = way => bp.Event("throttle", way);
const throttles = bp.EventSet("throttles", e => e.name === "throttle");
const speed = n => bp.Event("speed", n);
const speeds = bp.EventSet("speeds", e => e.name === "speed");

// Asks for one correction after each speed that is wrong. Where it has to wait for it, a newer speed counts.
function hold(target) {
  bp.registerBThread("Hold " + target, () => {
    bp.setInterruptHandler(e => {
      bp.log.info(e.name + ": " + target + " was held");
      if (e === brake) keep(target);
    });
    let wanted = [];
    while (true) {
      const e = bp.sync({request: wanted, waitFor: speeds, interrupt: [brake, set, off]});
      const isRight = e.name !== "speed" || e.data === target;
      wanted = isRight ? [] : [throttle(e.data < target ? "more" : "less")];
    }
  });
}

// Keeps a speed for the driver until he wants it back.
function keep(target) {
  bp.registerBThread("Keep " + target, () => {
    bp.sync({waitFor: resume, interrupt: [set, off]});
    hold(target);
  });
}

bp.registerBThread("Set", () => {
  let now = 0;
  while (true) {
    const e = bp.sync({waitFor: [speeds, set]});
    if (e === set) hold(now);
    else now = e.data;
  }
});

bp.registerBThread("No throttle while the clutch is down", () => {
  while (true) {
    bp.sync({waitFor: clutchDown});
    bp.sync({waitFor: clutchUp, block: throttles});
  }
});

bp.registerBThread("Requirement: no throttle after the brake", () => {
  while (true) {
    let e = bp.sync({waitFor: brake});
    while (e !== set && e !== resume) {
      e = bp.sync({waitFor: [throttles, set, resume]});
      bp.ASSERT(e.name !== "throttle", "throttle after the brake");
    }
  }
});

const outside = [
  speed(80), set, speed(77), clutchDown, speed(76), brake, speed(60), resume, speed(61), clutchUp, set, speed(63), off,
  speed(50)
];
outside.forEach(e => bp.enqueueExternalEvent(e));
