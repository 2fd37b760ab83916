// `size` b-threads, each of which requests four events of its own: all of them can be selected, and one is drawn.
// sizes 250 1000 4000, events 4 * size
const size = 250;
const worker = number => () => {
  for (let round = 0; round < 4; round++) bp.sync({request: bp.Event("work", number)});
};
for (let i = 0; i < size; i++) bp.registerBThread("Worker " + i, worker(i));
