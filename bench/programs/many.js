// `size` b-threads with four events each: all that have not ended can be selected at each step, and one is drawn.
const size = 300;
const worker = number => () => {
  for (let round = 0; round < 4; round++) bp.sync({request: bp.Event("work", number)});
};
for (let i = 0; i < size; i++) bp.registerBThread("Worker " + i, worker(i));
