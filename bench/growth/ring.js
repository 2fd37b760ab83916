// `size` b-threads in a ring: each event moves the one that requests it and the next.
// sizes 40 400 4000, events 20000
const size = 40;
const after = number => number + 1 < size ? number + 1 : 0;
const cell = number => () => {
  while (true) {
    bp.sync({waitFor: bp.Event("go", number)});
    bp.sync({request: bp.Event("go", after(number))});
  }
};
for (let i = 0; i < size; i++) bp.registerBThread("Cell " + i, cell(i));
bp.registerBThread("Start", () => {
  bp.sync({request: bp.Event("go", 0)});
});
bp.registerBThread("Stop", () => {
  for (let i = 0; i < 20000; i++) bp.sync({waitFor: bp.all});
  bp.ASSERT(false, "the end");
});
