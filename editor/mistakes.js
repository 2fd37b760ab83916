// Lines with one mistake each. An editor with `bp.d.ts` marks them all, and no other line; `sh editor/check.sh` looks whether it
// does. Behind each line stands what `bp run` says where it alone is there: a fault once the run gets there, or a refusal.
const hot = bp.Event("hot");
const cold = bp.Event("cold");
const named = name => bp.EventSet(name, e => e.name === name);
const set = named("hot");
const list = [1, 2, 3];
const text = "hot water";

bp.registerBThread("Hot", () => {
  bp.sync({request: hot});
});

bp.registerBThread("Mistakes", () => {
  list.push(4); // type
  bp.log.info(list.map(n => n + 1)); // type
  bp.log.info(list.filter(n => n > 1)); // type
  bp.log.info(list.includes(1)); // type
  bp.log.info(text.indexOf("hot")); // type
  bp.log.info(text.length); // type
  bp.log.info(text[0] === "h"); // type
  bp.log.info(list < 3); // type
  bp.log.info(hot.name.equals("hot")); // type
  bp.log.info(set.contains(hot)); // type
  bp.log.info([hot, cold]); // type
  bp.ASSERT(list.length === 3); // type
  bp.log.info(bp.Event("pair", hot)); // type
  bp.EventSet("hot", "cold"); // type
  bp.sync({waitfor: hot}); // statement
  bp.sync({requests: hot}); // statement
  bp.sync({request: "hot"}); // statement
  bp.sync({request: set}); // statement
  bp.sync({request: null}); // statement
  bp.sync({waitFor: e => e.name === "hot"}); // statement
  bp.sync({request: hot}, {priority: 1}); // statement
  bp.sync(); // statement
  bp.sync({waitFor: bp.EventSet("hot", e => bp.log.info(e))}); // mode
  bp.sync({waitFor: bp.EventSet("hot", e => e.name)}); // truth
});
bp.registerBThread(() => bp.sync({request: hot})); // type
bp.log.warn("hot"); // unknown bp.log
bp.log.info(Math.max(1, 2)); // unknown Math.max
console.log("hot"); // unknown console
list[0] = 4; // no tree
hot.name = "cold"; // no tree
