// Events whose data is fields, lists and texts: `size` of them, of which a b-thread waits for some by a predicate.
const size = 20000;
const express = bp.EventSet("express", e => e.data.express);
bp.registerBThread("Shop", () => {
  for (let i = 0; i < size; i++) {
    const order = {number: i, express: i % 10 === 0, goods: ["tea", "milk " + i % 7], to: {street: "Main Street", house: i % 90}};
    bp.sync({request: bp.Event("order " + i % 5, order)});
  }
});
bp.registerBThread("Courier", () => {
  while (true) bp.sync({waitFor: express});
});
