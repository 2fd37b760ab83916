// `size` events that wait, blocked by a predicate that is stated anew at each event; one behind them comes at each step.
// sizes 16 400 16000, events 20000
const size = 16;
for (let i = 0; i < size; i++) bp.enqueueExternalEvent(bp.Event("held", i));
bp.registerBThread("Rule", () => {
  while (true) bp.sync({waitFor: bp.Event("tick"), block: bp.EventSet("held", e => e.name === "held")});
});
bp.registerBThread("Clock", () => {
  for (let i = 0; i < 20000; i++) {
    bp.enqueueExternalEvent(bp.Event("tick"));
    bp.sync({waitFor: bp.Event("tick")});
  }
});
