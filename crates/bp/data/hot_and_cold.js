// Hot and cold water, mixed. Two taps each pour three times, and know nothing of one another; a third b-thread makes them
// take turns, by waiting for the one and blocking the other. Without it any order could come.
bp.registerBThread("Add hot", function() {
  bp.sync({request: bp.Event("hot")});
  bp.sync({request: bp.Event("hot")});
  bp.sync({request: bp.Event("hot")});
});
bp.registerBThread("Add cold", function() {
  bp.sync({request: bp.Event("cold")});
  bp.sync({request: bp.Event("cold")});
  bp.sync({request: bp.Event("cold")});
});
bp.registerBThread("Interleave", function() {
  while (true) {
    bp.sync({waitFor: bp.Event("hot"), block: bp.Event("cold")});
    bp.sync({waitFor: bp.Event("cold"), block: bp.Event("hot")});
  }
});
