"""Runs the rows of tests/rows over built programs (rows.sh; tests/rows/README.md says how a row is written)."""
import concurrent.futures
import difflib
import functools
import itertools
import os
import re
import shlex
import signal
import subprocess
import sys
import tempfile

HERE = os.path.dirname(os.path.abspath(__file__))
TOP = os.path.dirname(HERE)
PROGRAMS = ("bp", "bpx")
# A run that takes longer has failed, unless its row says otherwise.
MOST_SECONDS = 60
# So much is shown of what differs.
MOST_LINES, MOST_LETTERS = 12, 160


class Wrong(Exception):
    """A file of rows that is not written as one."""


class Failed(Exception):
    """A row that does not hold."""


def unescaped(text):
    """The bytes of a text in which `\\n` is a line end, `\\xHH` a byte, and `\\\\` a backslash."""

    def one(found):
        word = found[0]
        if word in (b"\\n", b"\\\\"):
            return {b"\\n": b"\n", b"\\\\": b"\\"}[word]
        if len(word) == 4:
            return bytes([int(word[2:], 16)])
        raise Wrong(f"no such escape: {word.decode(errors='replace')}")

    return re.sub(rb"\\(?:x[0-9a-fA-F]{2}|.|$)", one, text.encode())


def times(content, count):
    """The content so many times, with the number of each, from 0, in the place of `{i}`, the next in that of `{i+1}`, and so on."""
    place = re.compile(rb"\{i([+-]\d+)?\}")
    if count == 1 or not place.search(content):
        return content * count
    numbered = lambda number: place.sub(lambda found: b"%d" % (number + int(found[1] or 0)), content)
    return b"".join(map(numbered, range(count)))


class Block:
    """The content of a file or of an output, and how it is looked at: `all`, or a word that stands in the line above it."""

    def __init__(self, words, lines):
        self.mode, self.of, count, escaped = "all", None, 1, False
        words = list(words)
        while words:
            word = words.pop(0)
            if word == "escaped":
                escaped = True
            elif word == "repeat" and words:
                count = int(words.pop(0))
            elif word in ("starts", "has", "ends", "any"):
                self.mode = word
            elif word in ("as", "lines") and words:
                self.mode, self.of = word, words.pop(0)
            elif word == "from" and words and not lines:
                with open(os.path.join(TOP, words.pop(0)), encoding="utf-8") as file:
                    lines = file.read().splitlines()
            else:
                raise Wrong(f"no such word: {word}")
        once = map(unescaped, lines) if escaped else (f"{line}\n".encode() for line in lines)
        self.content = times(b"".join(once), count)
        if self.of is not None and lines:
            raise Wrong(f"`{self.mode}` has no content")

    def look(self, came, folder):
        """Fails where these bytes are not as wanted."""
        wanted = read(folder, self.of) if self.mode == "as" else self.content
        if self.mode == "lines":
            if came.count(b"\n") != int(self.of):
                raise Failed(f"{came.count(10)} lines came, and {self.of} were wanted")
        elif self.mode == "has":
            lines = iter(came.split(b"\n"))
            for line in wanted.splitlines():
                if line not in lines:
                    raise Failed(f"lacks, in this order: {shown(line)}")
        elif self.mode == "starts" and not came.startswith(wanted):
            raise Failed(difference(wanted, came[: len(wanted)]))
        elif self.mode == "ends" and not came.endswith(wanted):
            raise Failed(difference(wanted, came[-len(wanted) :]))
        elif self.mode in ("all", "as") and came != wanted:
            raise Failed(difference(wanted, came))


class Runs:
    """Runs that stand one after another, by their lines and words, and what has to come of each of them."""

    def __init__(self):
        self.all, self.status, self.is_told = [], 0, False
        # (what is looked at and how, and the names of files)
        self.looks, self.same, self.lacks, self.keeps = [], [], [], []


class Part:
    """A row, or what stands before the first row of a file and is part of each: its title, and what is done in turn."""

    def __init__(self, path, line, title, shared=None):
        self.path, self.line, self.title = path, line, title
        self.steps = list(shared.steps) if shared else []
        self.choices = list(shared.choices) if shared else []
        # (a file of which the row is done with each front)
        self.fronts = shared.fronts if shared else None
        self.seconds = shared.seconds if shared else MOST_SECONDS
        self.is_row = shared is not None

    def runs(self):
        return [step for step in self.steps if isinstance(step, Runs)]

    def programs(self):
        return {words[0] for runs in self.runs() for _, words in runs.all}

    def last(self, is_told):
        """The runs that a line is about. After a line of what comes of them, a run is one of others."""
        last = self.steps[-1] if self.steps else None
        if not isinstance(last, Runs) or last.is_told and not is_told:
            if is_told or not self.is_row:
                raise Wrong("no run stands above this line")
            last = Runs()
            self.steps.append(last)
        last.is_told = is_told
        return last

    def add(self, number, line, content):
        """Adds a line of the file, with the content below it."""
        verb, _, rest = line.partition(" ")
        if verb in CHANGES:
            name, _, how = rest.partition(" ")
            self.steps.append(functools.partial(change, CHANGES[verb], name, how))
            return
        words = shlex.split(rest)
        if content and verb not in ("file", "more", "out", "err", "makes"):
            raise Wrong(f"`{verb}` has no content")
        if verb == "file":
            self.steps.append(functools.partial(write, words[0], Block(words[1:], content).content))
        elif verb == "more":
            self.more(words, content)
        elif verb == "for":
            self.choices.append([words[:1] + [word] for word in words[1:]])
        elif verb == "fronts":
            self.fronts = words[0]
        elif verb == "within":
            self.seconds = int(words[0])
        elif verb == "run":
            if words[:1] not in [[name] for name in PROGRAMS]:
                raise Wrong("a run begins with bp or bpx")
            self.last(False).all.append((number, words))
        elif verb in ("out", "err"):
            self.last(True).looks.append((verb, Block(words, content)))
        elif verb == "makes":
            self.last(True).looks.append((words[0], Block(words[1:], content)))
        elif verb == "status":
            self.last(True).status = int(words[0])
        elif verb in ("same", "lacks", "keeps"):
            getattr(self.last(True), verb).append(words[0])
        else:
            raise Wrong(f"no such line: {verb}")

    def more(self, words, content):
        names = list(itertools.takewhile(lambda word: word not in ("escaped", "repeat", "from"), words))
        block = Block(words[len(names) :], content)
        for name in names:
            if name not in ("out", "err"):
                self.steps.append(functools.partial(append, name, block.content))
                continue
            looks = self.last(True).looks
            if not looks or looks[-1][0] != name:
                raise Wrong(f"no `{name}` stands above this line")
            looks[-1][1].content += block.content


def read(folder, name):
    try:
        with open(os.path.join(folder, name), "rb") as file:
            return file.read()
    except OSError as error:
        raise Failed(f"{name}: {error.strerror}") from None


def write(name, content, folder):
    with open(os.path.join(folder, name), "wb") as file:
        file.write(content)


def append(name, content, folder):
    write(name, read(folder, name) + content, folder)


def change(how, name, words, folder):
    write(name, how(read(folder, name), words), folder)


def edit(content, how):
    """The content with the first place of a text changed, as `s/FROM/TO/` says."""
    parts = how[1:].split(how[1:2]) if len(how) > 1 and how[0] == "s" else []
    if len(parts) != 4 or parts[3]:
        raise Wrong(f"no edit: {how}")
    old, new = unescaped(parts[1]), unescaped(parts[2])
    if old not in content:
        raise Failed(f"nothing to edit: {how}")
    return content.replace(old, new, 1)


def cut(content, lines):
    return b"".join(content.splitlines(keepends=True)[: int(lines)])


def chop(content, size):
    return content[: max(0, len(content) - int(size))]


CHANGES = {"edit": edit, "cut": cut, "chop": chop}


def shown(line):
    text = line.decode(errors="backslashreplace").replace("\r", "\\r")
    return text if len(text) <= MOST_LETTERS else f"{text[:MOST_LETTERS]}.. ({len(text)} letters)"


def difference(wanted, came):
    """A short account of what was wanted and what came."""
    sides = [side.split(b"\n") for side in (wanted, came)]
    front = sum(1 for _ in itertools.takewhile(lambda pair: pair[0] == pair[1], zip(*sides)))
    sides = [list(map(shown, side[max(0, front - 2) : front + 200])) for side in sides]
    lines = list(difflib.unified_diff(*sides, "wanted", "came", n=1, lineterm=""))
    return "\n".join(lines[:MOST_LINES] + ["   .."] * (len(lines) > MOST_LINES))


def lines_of(text):
    """The lines of a file of rows by their numbers, each with the content that is indented below it. A blank line between two lines of
    content is one of them."""
    lines, at = text.split("\n"), 0
    while at < len(lines):
        number, line = at + 1, lines[at]
        at += 1
        if not line or line.startswith("#"):
            continue
        if line.startswith(" "):
            yield number, line, []
            continue
        content, end = [], at
        while end < len(lines) and (not lines[end] or lines[end].startswith("  ")):
            end += 1
            if lines[end - 1]:
                content += [line[2:] for line in lines[at:end]]
                at = end
        yield number, line, content


def rows_in(path):
    """The rows of a file."""
    with open(path, encoding="utf-8") as file:
        text = file.read()
    shared, rows, titles = Part(path, 0, None), [], set()
    part = shared
    for number, line, content in lines_of(text):
        try:
            if line.startswith("row "):
                if content or line in titles:
                    raise Wrong("a row has a title of its own, and its lines below")
                part = Part(path, number, line[4:], shared)
                rows.append(part)
                titles.add(line)
            else:
                part.add(number, line, content)
        except (Wrong, OSError, ValueError, IndexError) as error:
            raise Wrong(f"{path}:{number}: {line[:MOST_LETTERS]}: {error}") from None
    for row in rows:
        if not row.runs():
            raise Wrong(f"{path}:{row.line}: the row has no run")
    if not rows:
        raise Wrong(f"{path}: no rows")
    return rows


def ran(words, folder, seconds):
    """The status, output and standard error of a program."""
    how = {"stdin": subprocess.DEVNULL, "stdout": subprocess.PIPE, "stderr": subprocess.PIPE}
    with subprocess.Popen(words, cwd=folder, start_new_session=True, **how) as program:
        try:
            out, err = program.communicate(timeout=seconds)
        except subprocess.TimeoutExpired:
            os.killpg(program.pid, signal.SIGKILL)
            raise Failed(f"had not ended after {seconds} seconds") from None
    return program.returncode, {"out": out, "err": err}


def look_at(runs, words, folder, seconds):
    """Makes one of the runs, and fails where not all comes of it that has to."""
    before = {name: read(folder, name) for name in runs.same}
    status, came = ran(words, folder, seconds)
    looks = list(runs.looks)
    for name in ("out", "err"):
        if name not in [of for of, _ in looks]:
            looks.append((name, Block((), ())))
    wrong = []
    if status != runs.status:
        wrong.append(f"status {status}, and {runs.status} was wanted")
    for name, block in looks:
        try:
            block.look(came[name] if name in came else read(folder, name), folder)
        except Failed as error:
            wrong.append(f"{ {'out': 'standard output', 'err': 'standard error'}.get(name, name) }:\n{error}")
    wrong += [f"{name} has changed" for name in runs.same if read(folder, name) != before[name]]
    wrong += [f"{name} is there" for name in runs.lacks if os.path.exists(os.path.join(folder, name))]
    if wrong:
        raise Failed("\n".join(wrong))
    for name in runs.keeps:
        write(name, came["out"], folder)


def fronts_of(row):
    """The sizes of the fronts that the row is done with: each, from nothing to all but the last byte, or none where it asks for none."""
    if not row.fronts:
        return [None]
    with tempfile.TemporaryDirectory(prefix="rows-") as folder:
        for step in itertools.takewhile(lambda step: not isinstance(step, Runs), row.steps):
            step(folder)
        return range(len(read(folder, row.fronts)))


def done(row, programs, size, options):
    """Does the row once, with a front of this size and these options: None, or why it does not hold."""
    at, said = row.line, "" if size is None else f" (with {size} bytes of {row.fronts})"
    with tempfile.TemporaryDirectory(prefix="rows-") as folder:
        try:
            for step in row.steps:
                if not isinstance(step, Runs):
                    step(folder)
                    continue
                if size is not None and at == row.line:
                    write(row.fronts, read(folder, row.fronts)[:size], folder)
                for at, (program, *words) in step.all:
                    if words[:1] == ["run"] and program == "bp":
                        words[1:1] = options
                    said = f" ({shlex.join([program, *words])})" if size is None else said
                    look_at(step, [programs[program], *words], folder, row.seconds)
        except (Failed, Wrong, OSError) as error:
            return f"{os.path.relpath(row.path, TOP)}:{at}: {row.title}{said}\n{error}"
    return None


def holds(row, programs):
    """None, or why the row does not hold for these programs."""
    for size in fronts_of(row):
        for choice in itertools.product(*row.choices):
            why = done(row, programs, size, [word for pair in choice for word in pair])
            if why is not None:
                return why
    return None


def tables_in(places):
    """The files of rows at these places, or all."""
    for place in places or [f"{HERE}/rows"]:
        if not os.path.isdir(place):
            yield place
            continue
        for folder, folders, files in os.walk(place):
            folders.sort()
            yield from (os.path.join(folder, name) for name in sorted(files) if name.endswith(".rows"))


def programs_of(path):
    """The programs that the rows are tried with, in sets: those that are named, or those that stand built."""
    built = {name: f"{TOP}/crates/{name}/out/{name}" for name in PROGRAMS}
    given = {"bp": path or os.environ.get("BP"), "bpx": os.environ.get("BPX")}
    given = {name: program for name, program in given.items() if program}
    if given:
        sets = [given]
    else:
        others = {name: f"{program}.by-rattle" for name, program in built.items()}
        sets = [built, {name: program for name, program in others.items() if os.path.exists(program)}]
    for programs in sets:
        for program in programs.values():
            if not os.access(program, os.X_OK):
                raise Wrong(f"no program stands at {program}: `sh ./bp` and `sh ./bpx` build them")
    return [{name: os.path.abspath(it) for name, it in programs.items()} for programs in sets if programs]


def tried(rows, programs):
    """How many of the rows hold for these programs, and how many do not, which are told."""
    able = [row for row in rows if row.programs() <= set(programs)]
    if len(able) < len(rows):
        print(f"not tried, since their programs are not named: {len(rows) - len(able)} rows")
    # Those that are slow come first.
    able.sort(key=lambda row: -row.seconds)
    passed = failed = 0
    with concurrent.futures.ThreadPoolExecutor(len(os.sched_getaffinity(0))) as threads:
        for why in threads.map(lambda row: holds(row, programs), able):
            passed, failed = passed + (why is None), failed + (why is not None)
            if why is not None:
                print(why, flush=True)
    print(f"{len(able)} rows by {' and '.join(os.path.relpath(it) for it in programs.values())}", flush=True)
    return passed, failed


def main(words):
    is_table = lambda word: os.path.isdir(word) or word.endswith(".rows")
    tables = list(filter(is_table, words))
    others = list(itertools.filterfalse(is_table, words))
    try:
        if len(others) > 1:
            raise Wrong("at most one program is named, and then folders and files of rows")
        programs = programs_of(others[0] if others else None)
        rows = [row for path in tables_in(tables) for row in rows_in(path)]
    except (Wrong, OSError) as error:
        print(f"rows: {error}", file=sys.stderr)
        return 1
    passed = failed = 0
    for each in programs:
        more_passed, more_failed = tried(rows, each)
        passed, failed = passed + more_passed, failed + more_failed
    print(f"{passed} passed, {failed} failed")
    return 0 if passed and not failed else 1


sys.exit(main(sys.argv[1:]))
