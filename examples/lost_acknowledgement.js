// A test that finds a fault. A sender repeats each frame until it is acknowledged, and numbers its frames 0, 1, 0, 1, so that
// the receiver can tell a repeated frame from a new one. The receiver here forgets to look. The first b-threads are the system,
// then come a scenario, which drives it into a corner by blocking, and a requirement, which ends the run once it is broken: the
// verdict is `violated`, and so is the status of the run.
const frames = bp.EventSet("frames", e => e.name === "frame");
const acknowledgements = bp.EventSet("acknowledgements", e => e.name === "ack");
const heard = bit => bp.Event("heard", bit);
const lost = bp.Event("lost");
const timeout = bp.Event("timeout");

bp.registerBThread("Sender", () => {
  let bit = 0;
  for (const text of ["a", "b", "c"]) {
    const frame = bp.Event("frame", {bit: bit, text: text});
    let answer = timeout;
    while (answer === timeout) {
      bp.sync({request: frame});
      answer = bp.sync({waitFor: [heard(bit), timeout]});
    }
    bit = 1 - bit;
  }
});

bp.registerBThread("Receiver", () => {
  while (true) {
    const frame = bp.sync({waitFor: frames}).data;
    bp.sync({request: bp.Event("deliver", frame.text)});
    bp.sync({request: bp.Event("ack", frame.bit)});
  }
});

// The way back: an acknowledgement is heard, or it is lost.
bp.registerBThread("Channel", () => {
  while (true) {
    const bit = bp.sync({waitFor: acknowledgements}).data;
    bp.sync({request: heard(bit), waitFor: lost});
  }
});

bp.registerBThread("Scenario: the second acknowledgement is lost", () => {
  bp.sync({waitFor: acknowledgements});
  bp.sync({waitFor: acknowledgements});
  bp.sync({request: lost, block: [heard(0), heard(1)]});
  bp.sync({request: timeout});
});

bp.registerBThread("Requirement: no message is delivered twice", () => {
  let last = "";
  while (true) {
    const text = bp.sync({waitFor: bp.EventSet("deliveries", e => e.name === "deliver")}).data;
    bp.ASSERT(text !== last, text + " was delivered twice");
    last = text;
  }
});
