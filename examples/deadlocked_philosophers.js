// Three philosophers, with a fork between each two, and no butler: each may hold his left fork and wait for ever. `quiet` says
// that nothing can be selected, and so it would be the verdict then as it is where all have eaten. The last b-thread and the last
// line tell the two apart: an event of the queue is taken only where nothing that is requested can be selected, so `stuck` comes
// where the table stands still, and the watch says what was not eaten by then. Under the seed 0 all is well; 1 is the first under
// which the philosophers wait for ever.
const seats = [0, 1, 2];
const meals = 2;

const take = (philosopher, fork) => bp.Event("take", {fork: fork, philosopher: philosopher});
const rise = philosopher => bp.Event("rise", philosopher);
const rises = bp.EventSet("rises", e => e.name === "rise");
const takes = bp.EventSet("takes", e => e.name === "take");
const stuck = bp.Event("stuck");
const right = philosopher => (philosopher + 1) % seats.length;

// Forks are taken from the left and from the right in this order, and are put down together.
const philosopher = seat => () => {
  for (let meal = 0; meal < meals; meal++) {
    bp.sync({request: take(seat, seat)});
    bp.sync({request: take(seat, right(seat))});
    bp.sync({request: rise(seat)});
  }
};

const fork = number => () => {
  const takings = takes.and(bp.EventSet("of fork " + number, e => e.data.fork === number));
  while (true) {
    const e = bp.sync({waitFor: takings});
    bp.sync({waitFor: rise(e.data.philosopher), block: takings});
  }
};

seats.forEach(seat => {
  bp.registerBThread("Philosopher " + seat, philosopher(seat));
  bp.registerBThread("Fork " + seat, fork(seat));
});

bp.registerBThread("Watch: all meals are eaten", () => {
  for (let left = seats.length * meals; left > 0; left--) {
    const e = bp.sync({waitFor: [rises, stuck]});
    bp.ASSERT(e !== stuck, "stuck, and " + left + " meals are not eaten");
  }
});
bp.enqueueExternalEvent(stuck);
