// `size` b-threads that wait for events that never come, beside one that goes on.
// sizes 40 400 4000, events 20000
const size = 40;
const waiter = number => () => {
  while (true) bp.sync({waitFor: bp.Event("never", number)});
};
for (let i = 0; i < size; i++) bp.registerBThread("Waiter " + i, waiter(i));
bp.registerBThread("Clock", () => {
  for (let i = 0; i < 20000; i++) bp.sync({request: bp.Event("tick")});
});
