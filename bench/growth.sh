#!/bin/sh
# What an event costs as a program grows: runs the programs of bench/growth at three sizes each, and prints the processor
# microseconds of an event, user and system, less the start of the program, the least of two tries; and how many times as much an
# event costs at the greatest size as at the least. In each program but `broadcast` and `requesters` an event moves one or two
# b-threads, and all others only stand by. Of `broadcast` the figures are of a b-thread that goes on.
#
#     sh bench/growth.sh [NAME..]
#
# The program is the one that `sh ./bp` builds, or the one at the path in BP.
top=$(cd "$(dirname "$0")/.." && pwd) || exit 1
if [ -z "$BP" ]; then
    sh "$top/bp" accept "$top/bench/programs/turns.js" > /dev/null || exit 1
    BP=$top/crates/bp/out/bp
fi
exec python3 - "$BP" "$top/bench/growth" "$@" <<'END'
import os, re, resource, subprocess, sys, tempfile
bp, folder, names = sys.argv[1], sys.argv[2], sys.argv[3:]
names = names or [file[:-3] for file in sorted(os.listdir(folder))]


def seconds(text):
    with tempfile.NamedTemporaryFile("w", suffix=".js") as script:
        script.write(text)
        script.flush()
        least = None
        for _ in range(2):
            before = resource.getrusage(resource.RUSAGE_CHILDREN)
            command = [bp, "run", "--steps", "1000000", script.name]
            status = subprocess.run(command, stdout=subprocess.DEVNULL, stderr=subprocess.DEVNULL).returncode
            after = resource.getrusage(resource.RUSAGE_CHILDREN)
            if status not in (0, 3, 6):
                sys.exit(f"status {status}")
            taken = after.ru_utime + after.ru_stime - before.ru_utime - before.ru_stime
            least = taken if least is None else min(least, taken)
        return least


start = seconds("")
for name in names:
    with open(f"{folder}/{name}.js") as file:
        text = file.read()
    found = re.search(r"^// sizes ([\d ]+), events (.*)$", text, re.M)
    costs = []
    for size in [int(word) for word in found[1].split()]:
        taken = seconds(re.sub(r"(?m)^const size = \d+;", f"const size = {size};", text))
        factor, _, rest = found[2].partition(" * ")
        events = int(factor) * size if rest else int(factor)
        costs.append((size, max(taken - start, 0) / events * 1e6))
    line = "  ".join(f"{size}: {cost:.2f} us" for size, cost in costs)
    times = f"{costs[-1][1] / costs[0][1]:.1f} times" if costs[0][1] > 0 else "-"
    print(f"{name:11} {line}  {times}", flush=True)
END
