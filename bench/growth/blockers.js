// `size` b-threads, each of which blocks an event that nobody requests, beside one that goes on.
// sizes 40 400 4000, events 20000
const size = 40;
const guard = number => () => {
  bp.sync({block: bp.Event("never", number)});
};
for (let i = 0; i < size; i++) bp.registerBThread("Guard " + i, guard(i));
bp.registerBThread("Clock", () => {
  for (let i = 0; i < 20000; i++) bp.sync({request: bp.Event("tick")});
});
