// `size` b-threads that request what a rule blocks, and that are moved in turn. The rule is stated anew at each event.
// sizes 40 400 2000, events 20000
const size = 40;
const player = number => () => {
  while (true) {
    bp.sync({request: bp.Event("serve", number), waitFor: bp.Event("turn", number)});
    bp.sync({waitFor: bp.Event("turn", number)});
  }
};
for (let i = 0; i < size; i++) bp.registerBThread("Player " + i, player(i));
bp.registerBThread("Umpire", () => {
  for (let i = 0; i < 20000; i++) {
    bp.sync({request: bp.Event("turn", i % size), block: bp.EventSet("serves", e => e.name === "serve")});
  }
});
