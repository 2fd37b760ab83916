// Two b-threads that a third one makes take turns: `size` events, with one selectable at each step.
const size = 40000;
bp.registerBThread("Left", () => {
  for (let i = 0; i < size / 2; i++) bp.sync({request: bp.Event("left")});
});
bp.registerBThread("Right", () => {
  for (let i = 0; i < size / 2; i++) bp.sync({request: bp.Event("right")});
});
bp.registerBThread("Turns", () => {
  while (true) {
    bp.sync({waitFor: bp.Event("left"), block: bp.Event("right")});
    bp.sync({waitFor: bp.Event("right"), block: bp.Event("left")});
  }
});
