// `size` b-threads that block by a predicate what nobody requests, beside one that goes on.
// sizes 10 100 1000, events 20000
const size = 10;
const never = e => e.name === "never";
for (let i = 0; i < size; i++) bp.registerBThread("Guard " + i, () => {
  bp.sync({block: bp.EventSet("never", never)});
});
bp.registerBThread("Clock", () => {
  for (let i = 0; i < 20000; i++) bp.sync({request: bp.Event("tick")});
});
