// A scheduler of tasks that start tasks. A task is a b-thread that asks for its slices of time, one after the other, and then
// registers the tasks that follow on it. The scheduler is one more b-thread: it keeps the names of the tasks that are ready and
// blocks whatever is asked for by another task than the first of them. No task knows of it.
const build = {
  name: "compile", slices: 3, starts: [
    {name: "link", slices: 1, starts: [{name: "pack", slices: 1, starts: []}]},
    {name: "test", slices: 2, starts: []}
  ]
};
const manual = {name: "manual", slices: 4, starts: []};

const run = name => bp.Event("run", {task: name});
const finish = name => bp.Event("finish", {task: name});
const start = (name, child) => bp.Event("start", {task: name, child: child});

// What a task does, and through `launch` what the tasks do that it starts.
const body = task => () => {
  for (let slice = 0; slice < task.slices; slice++) bp.sync({request: run(task.name)});
  for (const child of task.starts) {
    bp.sync({request: start(task.name, child.name)});
    launch(child);
  }
  bp.sync({request: finish(task.name)});
};

function launch(task) {
  bp.registerBThread(task.name, body(task));
}

const anyOf = name => bp.EventSet("any " + name, e => e.name === name);
const steps = anyOf("run").or(anyOf("start")).or(anyOf("finish"));
const isOf = name => bp.EventSet("of " + name, e => e.data.task === name);

// All but the first one.
const rest = list => {
  let left = [];
  for (let i = 1; i < list.length; i++) left = left.concat(list[i]);
  return left;
};

bp.registerBThread("Round robin", () => {
  let ready = [build.name, manual.name];
  while (ready.length > 0) {
    const first = ready[0];
    const e = bp.sync({waitFor: steps, block: steps.and(isOf(first).negate())});
    if (e.name === "run") ready = rest(ready).concat(first);
    else if (e.name === "start") ready = ready.concat(e.data.child);
    else ready = rest(ready);
  }
});

// Counts the time, in slices.
bp.registerBThread("Clock", () => {
  let now = 0;
  while (true) {
    const e = bp.sync({waitFor: [anyOf("run"), anyOf("finish")]});
    if (e.name === "run") now++;
    else bp.log.info(e.data.task + " finished at " + now);
  }
});

launch(build);
launch(manual);
