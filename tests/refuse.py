"""Refuses the allocations of a command, one in each run, and judges how each run ends: with 10 and a front of what it is to print, or as
it does without. Runs that print the same and keep the same log are judged once.

    python3 tests/refuse.py KIND NAME FIRST STEP LAST INJECTOR..

is called by refuse.sh, which says what is right. The allocations are the FIRST one and each STEPth behind it up to LAST, or up to the
first number that no run comes to. KIND is

- `run`: a run of NAME.js with these injectors, by the rules in NAME.awk;
- `alone`: the same without a thread for any of them;
- `workers`: a run of NAME.js by four workers, whose text is NAME.text;
- `replay`: a replay of NAME.log, whose text is NAME.text.

Where no other thread is made, the command runs once, and a copy of it goes on from each allocation with that one refused (refuse.c).
The variable BP is the program, and `got` the folder in which refuse.so and copy.so stand.
"""
import hashlib
import os
import re
import subprocess
import sys

kind, name = sys.argv[1:3]
first, step, last = map(int, sys.argv[3:6])
injectors = sys.argv[6:]
top = os.path.dirname(os.path.dirname(os.path.abspath(__file__)))
program, got = os.environ["BP"], os.environ["got"]
# The folders of a run, and of a copy that was made of it.
run, copy = f"{got}/run", f"{got}/copy"
command = [program] + {
    "run": ["run", "--log", "log", f"{name}.js", *injectors],
    "workers": ["run", "--workers", "4", "--slice", "10", f"{name}.js"],
    "replay": ["replay", f"{name}.log"],
}["run" if kind == "alone" else kind]


def contents(file):
    """The bytes of the file, or None where there is none."""
    if not os.path.exists(file):
        return None
    with open(file, "rb") as opened:
        return opened.read()


def ended(words, **how):
    """The status of a command, 124 where it takes longer than a minute, and what it printed."""
    try:
        ran = subprocess.run(words, stdout=subprocess.PIPE, stderr=subprocess.DEVNULL, timeout=60, **how)
    except subprocess.TimeoutExpired:
        return 124, b""
    return ran.returncode, ran.stdout


def cleared(folder):
    """The folder, with nothing in it of runs before."""
    os.makedirs(folder, exist_ok=True)
    for file in os.listdir(folder):
        os.remove(f"{folder}/{file}")
    return folder


def runs():
    """Of each run its allocation, whether it came to it, its status, what it printed, and its log, or None where it keeps none."""
    for number in range(first, last + 1, step):
        mark = f"{cleared(run)}/mark"
        with open(mark, "w"):
            pass
        how = {**os.environ, "LD_PRELOAD": f"{got}/refuse.so", "REFUSED": str(number), "MARK": mark}
        status, text = ended(command, env=how, cwd=run)
        is_refused = not os.path.exists(mark)
        yield number, is_refused, status, text, contents(f"{run}/log")
        if not is_refused:
            return


def copies():
    """The same of each copy of one run, and then of the run itself, to which nothing is refused."""
    hears, said = os.pipe()
    heard, says = os.pipe()
    copied = " ".join(map(str, [first, step, last, said, heard]))
    how = {**os.environ, "LD_PRELOAD": f"{got}/copy.so", "COPIED": copied}
    cleared(copy)
    with open(f"{cleared(run)}/text", "wb") as text:
        whole = subprocess.Popen(command, stdout=text, stderr=subprocess.DEVNULL, env=how, cwd=run, pass_fds=[said, heard])
    os.close(said)
    os.close(heard)
    number = 0
    for line in os.fdopen(hears):
        number, status = map(int, line.split())
        yield number, True, status, contents(f"{copy}/text"), contents(f"{copy}/log")
        cleared(copy)
        os.write(says, b"\n")
    yield number + step, False, whole.wait(), contents(f"{run}/text"), contents(f"{run}/log")


def records(kept):
    """The records of a log, which may be cut anywhere."""
    line = re.search(rb"(?m)^program (\d+)\n", kept)
    return kept[line.end() + int(line[1]) + 1 :] if line else b""


def tells(text, kept):
    """Whether the rules make of the records in the log what was printed, or more, and so does a replay."""
    rules = ["awk", "-v", f"injectors={len(injectors)}", "-f", f"{top}/examples/told.awk", "-f", f"{name}.awk"]
    _, wanted = ended(rules, input=records(kept or b""))
    if not wanted.startswith(text):
        return False
    if kept is None:
        return True
    with open(f"{got}/log", "wb") as log:
        log.write(kept)
    status, again = ended([program, "replay", f"{got}/log"])
    return status in (0, 11) and again.startswith(text)


def is_told(text, kept):
    """Whether the log is that of the text, and of a merge of the injectors."""
    for file, held in ("trace", text), ("log", kept or b""):
        with open(f"{got}/{file}", "wb") as opened:
            opened.write(held)
    script = 'top=$1 got=$2; . "$top/examples/injected.sh"; shift 2; is_told "$@"'
    return subprocess.run(["sh", "-c", script, "sh", top, got, name, *injectors]).returncode == 0


def is_right(status, text, kept):
    """Whether the run or the replay ended as it may."""
    if kind in ("run", "alone"):
        return tells(text, kept) if status == 10 else status == 0 and is_told(text, kept)
    wanted = contents(f"{name}.text")
    return wanted.startswith(text) if status == 10 else status == 0 and text == wanted


count = wanting = wrong = number = 0
judged = set()
for number, is_refused, *came in copies() if kind in ("alone", "replay") else runs():
    count += is_refused
    wanting += came[0] == 10
    outcome = hashlib.sha256(repr(came).encode()).digest()
    if outcome not in judged and not is_right(*came):
        print(f"{kind}: allocation {number} refused: status {came[0]}", flush=True)
        wrong += 1
    judged.add(outcome)
    if wrong == 10:
        break
print(f"{kind} of {os.path.basename(name)}: {count} allocations refused, up to {number}, {wanting} runs ended with 10, {len(judged)} kinds")
sys.exit(wrong > 0 or wanting == 0)
