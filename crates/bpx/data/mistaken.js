// Each line of this program is accepted, and each finding is one that a run would meet, or not.
const list = [1, 2];
const half = 7 / 2;
const whole = 8 / 2;
bp.sync({request: bp.Event("top")});
bp.registerBThread("A", () => {
  list.push(3);
  list.foreach(x => x);
  bp.sync({
    request: bp.Event("a"),
    waitfor: bp.Event("b")
  });
  bp.sync();
  bp.sync({request: bp.Event("c")}, 3);
  bp.ASSERT(list.length === 2);
  bp.ASSERT(true, "a text");
  const doors = {open: () => 1};
  doors.open();
  doors.shut();
  bp.log.info(1 % 0);
  bp.log.info(Math.floor(7 / 2));
  bp.log.info(Math.floor(7 / 0));
});
