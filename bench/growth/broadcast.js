// `size` b-threads that every event moves: 400,000 of them go on, whatever the size.
// sizes 40 400 4000, events 400000
const size = 40;
for (let i = 0; i < size; i++) bp.registerBThread("Listener " + i, () => {
  while (true) bp.sync({waitFor: bp.all});
});
bp.registerBThread("Clock", () => {
  for (let i = 0; i < 400000 / size; i++) bp.sync({request: bp.Event("tick")});
});
