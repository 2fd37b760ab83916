// Evaluation alone: `size` times 10,000 turns of a loop between two synchronisation points.
const size = 100;
bp.registerBThread("Sums", () => {
  for (let round = 0; round < size; round++) {
    let sum = round;
    for (let i = 0; i < 10000; i++) sum = (sum * 17 + i) % 65521;
    bp.sync({request: bp.Event("sum", sum)});
  }
});
