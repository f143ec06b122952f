"""Tries changes to a crate's files in copies of the tree: each is checked over what was checked before it, so that only what the change
reaches is proved again. A refusal found so is a refusal; that a crate is proved is `rt ci`'s to say. And reads what `rt` says of must-fail edits."""
import json
import os
import re
import shutil
import signal
import subprocess
import tempfile
import threading
import time
from contextlib import contextmanager
from pathlib import Path

ROOT = Path(__file__).resolve().parent.parent
WORKERS = int(os.environ.get("WORKERS") or max(1, (os.cpu_count() or 1) // 2))

# What the checker says where a proof file no longer fits the code, and of what stands on such a proof: it tells nothing of the contract.
UNFIT = re.compile(r"has no field|is not in scope|has no `|was not admitted|no argument named|takes no .* argument|rejected, was not checked")
# A goal that it has not proved by itself: a fact where values are known at which the goal is false; else one only where every proof file still fits.
UNPROVED = "it is not proved that"
FALSE = "the facts known there allow"
TOLD = re.compile(r"(note: )?(\./)?(src|specs|proofs)/\S+:\d+:\d+: ")
# What `rt ci` and `rt must-fail` say of an edit; of the first error they print some 160 characters.
OF_EDIT = re.compile(r"^rt: must-fail (\w+)/(\S+)\.edit: (BAD EDIT|NOT TRIED|NOT REFUSED|refused, as it must be)(.*)$", re.M)


def is_fact(line):
    """Whether an error shows that the changed code does what its contract, or a law about a changed definition, does not allow."""
    return FALSE in line if UNPROVED in line else not UNFIT.search(line)


class Verdict:
    """What a check said: `proved`, `refused` on a fact, `unfit` (the proof file does not fit the code), `rejected` before the proof by the
    compiler, or `unclear`; and the error that tells it."""

    def __init__(self, status, text):
        self.text = text
        told = [line for line in text.splitlines() if TOLD.match(line) and (": error" in line or UNPROVED in line or UNFIT.search(line))]
        unfit = [line for line in told if UNFIT.search(line)]
        unread = [line for line in unfit if not TOLD.match(line)[3] == "proofs"]
        facts = [line for line in told if is_fact(line)] or (told if not unfit else [])
        errors = [line for line in text.splitlines() if re.search(r"\berror\b", line)]
        self.first = next(iter(unread or facts or told or errors), "")
        if status == 0 and re.search(r"^logic=proved", text, re.M):
            self.kind = "proved"
        elif status == 1 and re.search(r"^logic=not-proved", text, re.M) and not unread:
            self.kind = "refused" if facts else "unfit"
        elif status == 1:
            self.kind = "rejected"
        else:
            self.kind = "unclear"

    def of(self, function):
        """The verdict on one function, a path as `output::SigmaDelta::shape`."""
        line = re.search(rf"^fn {re.escape(function)}: (.*)$", self.text, re.M)
        if not line or "it calls" in line.group(1):
            return "unclear", ""
        if line.group(1).startswith("proved"):
            return "proved", ""
        place = "proofs/" + "/".join(function.split("::")[1:]) + "/"
        told = [line for line in self.text.splitlines() if line.removeprefix("./").startswith(place) and ": error" in line]
        facts = [line for line in told if is_fact(line)]
        return ("refused", facts[0]) if facts else ("unclear", line.group(0))


def said_of_edits(text):
    """What `rt ci` or `rt must-fail` said of each edit: by (crate, label) `refused` on a fact, `bad`, `not tried`, `proved`, or `unclear` where the
    refusal may only say that the proof file no longer fits the code; and its words."""
    found = {}
    for crate, label, said, more in OF_EDIT.findall(text):
        kind = {"BAD EDIT": "bad", "NOT TRIED": "not tried", "NOT REFUSED": "proved"}.get(said)
        if kind is None:
            kind = "refused" if more.startswith(": ") and is_fact(more) else "unclear"
        found[crate, label] = kind, said + more
    return found


def edited(crate, path):
    """The crate's files after an edit: a `file:` line holds for the `old:` and `new:` lines after it."""
    files, name, old = {}, None, None
    for line in path.read_text().splitlines():
        word, _, rest = line.partition(":")
        rest = rest[1:] if rest.startswith(" ") else rest
        if word == "file":
            name = rest
            files.setdefault(name, (ROOT / "crates" / crate / name).read_text())
        elif word == "old":
            old = rest
        elif word == "new":
            if files[name].count(old) != 1:
                raise SystemExit(f"{path}: its text stands {files[name].count(old)} times in {name}: {old}")
            files[name] = files[name].replace(old, rest)
    return files


def with_pairs(crate, path, files):
    """An edit with pairs for all that these files have otherwise than it makes them, line by line; none where a line stands twice."""
    text, before = path.read_text().rstrip("\n"), edited(crate, path)
    for name, after in files.items():
        current = before.get(name) or (ROOT / "crates" / crate / name).read_text()
        pairs = [pair for pair in zip(current.splitlines(), after.splitlines()) if pair[0] != pair[1]]
        text += f"\nfile: {name}" * bool(pairs)
        for old, new in pairs:
            if current.count(old) != 1:
                return None
            current = current.replace(old, new)
            text += f"\nold: {old}\nnew: {new}"
    return text + "\n"


def linked(folder, to):
    """Copies what a check kept: its proofs by links, since the checker writes such a file anew and changes none."""
    def copy(one, other):
        return os.link(one, other) if one.endswith(".oantt") else shutil.copy2(one, other)

    shutil.copytree(folder, to, copy_function=copy)


def differing(one, other, place=""):
    """The pairs of strings in which two values of one shape differ, each with the key of the outermost record that it stands in."""
    if isinstance(one, dict) and isinstance(other, dict):
        for key in one.keys() & other.keys():
            yield from differing(one[key], other[key], place or key)
    elif isinstance(one, list) and isinstance(other, list) and len(one) == len(other):
        for pair in zip(one, other):
            yield from differing(*pair, place)
    elif isinstance(one, str) and isinstance(other, str) and one != other:
        yield place, one, other


class Copy:
    """A copy of the tree. A check there begins with what `rt check` kept of the crate, in this tree or in another one on the machine."""

    def __init__(self, folder):
        self.root = Path(folder)
        shutil.copytree(ROOT / "crates", self.root / "crates", ignore=lambda at, names: ["out"] if Path(at).parent == ROOT / "crates" else [])
        for name in ("crates.txt", "HANDLES"):
            if (ROOT / name).exists():
                shutil.copy(ROOT / name, self.root)
        self.ready = set()
        self.runs = set()
        self.names = {}

    def check(self, crate):
        run = subprocess.run(["rt", "check"], cwd=self.root / "crates" / crate, capture_output=True)
        return Verdict(run.returncode, (run.stdout + run.stderr).decode("utf-8", "replace"))

    def checked(self, crate):
        return self.root / "crates" / crate / "out/incremental", self.root / "clean" / crate

    def prepare(self, crate):
        """The crate as it stands, checked once; each trial begins there."""
        if crate in self.ready:
            return
        verdict = self.check(crate)
        if verdict.kind != "proved":
            raise SystemExit(f"{crate} as it stands is not proved: {verdict.first}")
        linked(*self.checked(crate))
        self.ready.add(crate)

    @contextmanager
    def changed(self, crate, files):
        """The copy with these files of the crate (paths below it, texts)."""
        kept = {}
        try:
            for name, text in files.items():
                path = self.root / "crates" / crate / name
                kept[path] = path.read_bytes()
                path.write_bytes(text.encode())
            yield
        finally:
            for path, text in kept.items():
                path.write_bytes(text)

    def attempt(self, crate, files):
        """The verdict on the crate with these files."""
        self.prepare(crate)
        work, clean = self.checked(crate)
        shutil.rmtree(work, ignore_errors=True)
        linked(clean, work)
        with self.changed(crate, files):
            return self.check(crate)

    def names_of(self, crate):
        """The names that proofs cite, by function, as the checker makes them of the code."""
        with tempfile.TemporaryDirectory() as room:
            subprocess.run(["rt", "names", room], cwd=self.root / "crates" / crate, capture_output=True)
            made = Path(room) / "names.json"
            return json.loads(made.read_text()) if made.exists() else {}

    def refitted(self, crate, files):
        """The files, and with them the proof files in which a name that comes from changed code, as `n-le96` of a test `n <= 96`, is the changed one."""
        if crate not in self.names:
            self.names[crate] = self.names_of(crate)
        with self.changed(crate, files):
            after = self.names_of(crate)
        renames = {}
        for key, old, new in differing(self.names[crate], after):
            function = re.fullmatch(rf"Rattle-{crate}-proofs\.(.*)\.Lts", key)
            if function:
                renames.setdefault(function[1], {})[old] = new
        files = dict(files)
        for path in sorted((ROOT / "crates" / crate / "proofs").rglob("*.antt")):
            name = str(path.relative_to(ROOT / "crates" / crate))
            text = files.get(name) or path.read_text()
            for function, pairs in renames.items():
                if name.startswith(f"proofs/{function.replace('.', '/')}/") or f"Rattle.{crate}.proofs.{function}." in text:
                    text = renamed(text, pairs)
            if text != path.read_text():
                files[name] = text
        return files

    def attempt_refitted(self, crate, files):
        """The verdict on the crate with these files, the names in its proof files carried over to what the checker makes of them."""
        return self.attempt(crate, self.refitted(crate, files))

    def said_of(self, crate, edits):
        """What `rt must-fail` says of these edits of the crate (labels and texts)."""
        folder = self.root / "crates" / crate / "must-fail"
        shutil.rmtree(folder, ignore_errors=True)
        folder.mkdir()
        for label, text in edits.items():
            (folder / f"{label}.edit").write_text(text)
        run = subprocess.run(["rt", "must-fail", crate], cwd=self.root, capture_output=True)
        text = (run.stdout + run.stderr).decode("utf-8", "replace")
        said = said_of_edits(text)
        return {label: said.get((crate, label), ("not tried", text[-300:])) for label in edits}

    def said_of_refitted(self, crate, edits):
        """What is said of these edits of the crate (labels and paths) with the names in its proof files carried over: by `rt must-fail`, which knows an edit
        that it has tried before, and by a check where an edit cannot say which line is meant, or its words leave open what the refusal is."""
        files = {label: self.refitted(crate, edited(crate, path)) for label, path in edits.items()}
        texts = {label: with_pairs(crate, path, files[label]) for label, path in edits.items()}
        said = self.said_of(crate, {label: text for label, text in texts.items() if text})
        for label in edits:
            if said.get(label, ("", ""))[0] not in ("refused", "proved"):
                verdict = self.attempt(crate, files[label])
                said[label] = verdict.kind, verdict.first
        return said

    def linked_program(self, program):
        """Whether `rt run` links the program. It then runs it too, and a changed program may never end."""
        folder = self.root / "crates" / program
        binary = folder / "out" / program
        binary.unlink(missing_ok=True)
        run = subprocess.Popen(["rt", "run"], cwd=folder, stdin=subprocess.DEVNULL, stdout=subprocess.DEVNULL, stderr=subprocess.DEVNULL, start_new_session=True)
        until = time.time() + 1200
        while run.poll() is None and not binary.exists() and time.time() < until:
            time.sleep(0.2)
        try:
            run.wait(60)
        except subprocess.TimeoutExpired:
            os.killpg(run.pid, signal.SIGKILL)
            run.wait()
        return binary.exists()

    def written(self, program):
        """What the program of the copy writes: `alike` or `differs`, or `unclear` where nothing was linked or compared."""
        if not self.linked_program(program):
            return "unclear"
        run = subprocess.run([ROOT / "tools/programs", "--bin", self.root / "crates" / program / "out", program], capture_output=True)
        return {0: "alike", 3: "differs"}.get(run.returncode, "unclear")

    def run_program(self, program, files):
        """What the program with these files writes. As it stands it has to write the same."""
        if program not in self.runs:
            if self.written(program) != "alike":
                raise SystemExit(f"{program} as it stands does not write what its cases have")
            self.runs.add(program)
        with self.changed(program, files):
            return self.written(program)


def renamed(text, pairs):
    """A proof file with these names changed: whole ones, and within longer ones those of tests, which begin with `if-`."""
    tests = {old[3:]: new[3:] for old, new in pairs.items() if old.startswith("if-") and new.startswith("if-")}
    for found, ends in ((pairs, r"[\w'-]"), (tests, r"[\w']")):
        if found:
            words = "|".join(re.escape(word) for word in sorted(found, key=len, reverse=True))
            text = re.sub(rf"(?<!{ends})(?:{words})(?!{ends})", lambda word: found[word[0]], text)
    return text


def try_again(unclear, report):
    """Tries edits (crate, label, path) with the names in the proof files carried over and hands (crate, label, kind, words) to report."""
    groups = {}
    for crate, label, path in unclear:
        groups.setdefault(crate, {})[label] = path

    def each(crate, _, said):
        for label, (kind, words) in said.items():
            report(crate, label, kind, words)

    run_all([(crate, None, edits) for crate, edits in groups.items()], each, Copy.said_of_refitted)


def run_all(trials, report, attempt=Copy.attempt):
    """Tries (crate, label, files) one after another, each crate's together, and hands (crate, label, verdict) to report."""
    groups = {}
    for crate, label, files in trials:
        groups.setdefault(crate, []).append((label, files))
    # large groups in parts, so that the workers end at about the same time
    parts = [(crate, group[at:at + 40]) for crate, group in groups.items() for at in range(0, len(group), 40)]
    lock = threading.Lock()

    def work(folder):
        copy = Copy(folder)
        while True:
            with lock:
                if not parts:
                    return
                crate, group = parts.pop(0)
            for label, files in group:
                verdict = attempt(copy, crate, files)
                with lock:
                    report(crate, label, verdict)

    if not parts:
        return
    with tempfile.TemporaryDirectory() as room:
        failed = []

        def guarded(folder):
            try:
                work(folder)
            except BaseException as fault:  # a worker that fails ends the run
                failed.append(fault)
                with lock:
                    parts.clear()

        workers = [threading.Thread(target=guarded, args=(f"{room}/{k}",)) for k in range(min(WORKERS, len(parts)))]
        for worker in workers:
            worker.start()
        for worker in workers:
            worker.join()
        if failed:
            raise SystemExit(str(failed[0]))
