// Two b-threads that hear all of `size` events. Where `batch` is not 0, the script enqueues them itself, so many at a time.
const size = 100000;
const batch = 10000;

const enqueue = first => {
  for (let i = first; i < first + batch; i++) bp.enqueueExternalEvent(bp.Event("number", i));
};

bp.registerBThread("Sum", () => {
  let sum = 0;
  while (true) sum += bp.sync({waitFor: bp.all}).data;
});

bp.registerBThread("Count", () => {
  let count = 0;
  while (true) {
    bp.sync({waitFor: bp.all});
    count++;
    if (batch > 0 && count % batch === 0 && count < size) enqueue(count);
  }
});

enqueue(0);
