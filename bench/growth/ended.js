// `size` b-threads that have ended, beside one that goes on.
// sizes 40 400 4000, events 20000
const size = 40;
for (let i = 0; i < size; i++) bp.registerBThread("Done " + i, () => {});
bp.registerBThread("Clock", () => {
  for (let i = 0; i < 20000; i++) bp.sync({request: bp.Event("tick")});
});
