// Five philosophers at a round table, with a fork between each two; one who eats needs both forks beside him. The philosophers
// are b-threads that one function makes. Each fork is one too, and is held by one philosopher at a time. The butler was added
// last, and no other b-thread had to be changed: he lets no fifth philosopher take a first fork, since then each could hold one
// and wait for ever. Which philosopher moves next is picked by the seed of the run.
const seats = [0, 1, 2, 3, 4];
const meals = 2;

const take = (philosopher, fork) => bp.Event("take", {fork: fork, philosopher: philosopher});
const rise = philosopher => bp.Event("rise", philosopher);
const rises = bp.EventSet("rises", e => e.name === "rise");
const takes = bp.EventSet("takes", e => e.name === "take");
const firstTakes = takes.and(bp.EventSet("of a first fork", e => e.data.fork === e.data.philosopher));
const right = philosopher => (philosopher + 1) % seats.length;

// Forks are taken from the left and from the right in this order, and are put down together.
const philosopher = seat => () => {
  for (let meal = 0; meal < meals; meal++) {
    bp.sync({request: take(seat, seat)});
    bp.sync({request: take(seat, right(seat))});
    bp.sync({request: rise(seat)});
  }
};

const fork = number => () => {
  const takings = takes.and(bp.EventSet("of fork " + number, e => e.data.fork === number));
  while (true) {
    const e = bp.sync({waitFor: takings});
    bp.sync({waitFor: rise(e.data.philosopher), block: takings});
  }
};

seats.forEach(seat => {
  bp.registerBThread("Philosopher " + seat, philosopher(seat));
  bp.registerBThread("Fork " + seat, fork(seat));
});

bp.registerBThread("Butler", () => {
  let seated = 0;
  while (true) {
    const e = bp.sync({waitFor: [firstTakes, rises], block: seated === seats.length - 1 ? firstTakes : bp.none});
    seated += e.name === "take" ? 1 : -1;
  }
});
