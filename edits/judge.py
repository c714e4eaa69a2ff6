"""Judges must-fail edits, many in one check. The head of `run`, beside this file, says what for.

A function's proof rests on the contracts of what it calls, not on their bodies. So wrong bodies of
different functions can stand in one copy of a crate, and the checker's report names each function that
isn't proved, with the goals that failed. Where a function has no clause, its contract is taken from its
body: an edit of it never stands beside one of a function that it calls or that comes to rest on it.
"""
import collections
import os
import re
import resource
import shutil
import subprocess
import sys
import tempfile
import threading
import time
from concurrent.futures import ThreadPoolExecutor

from edit import ROOT, BadEdit, Crate, Edit, place
from report import BAD, REFUSED, UNJUDGED, Report

PROCESSORS = int(os.environ.get("RT_JOBS") or len(os.sched_getaffinity(0)))
# In GB: what the checks that run side by side hold at most, and what one holds, with each of its jobs.
ROOM, A_PROCESS, A_JOB = 12, 2.5, 1.2
# In seconds of one processor, as measured in `bcder`: a check of what is kept, and each edit in it.
A_CHECK, AN_EDIT = 60, 7


class Judge:
    def __init__(self, scratch):
        self.scratch, self.began, self.lock = scratch, time.monotonic(), threading.Lock()
        self.fared, self.controls, self.is_well = collections.Counter(), collections.Counter(), True
        self.room, self.running, self.ending = min(ROOM, free_memory()), [], threading.Condition()

    def fits(self, running):
        """Whether checks with these jobs find processors and memory."""
        return sum(running) <= PROCESSORS and sum(A_PROCESS + A_JOB * it for it in running) <= self.room

    def check(self, folder, jobs, only=(), is_of_tests=False):
        """Checks a crate, with its tests if it has nothing else, or these functions of it and what they call, once there is room."""
        while jobs > 1 and not self.fits([jobs]):
            jobs -= 1
        with self.ending:
            self.ending.wait_for(lambda: not self.running or self.fits([*self.running, jobs]))
            self.running.append(jobs)
        words = ["rt", "check", "--jobs", str(jobs), *(it for name in only for it in ("--only", name)), *["--test"] * is_of_tests]
        how = {"stdin": subprocess.DEVNULL, "stdout": subprocess.PIPE, "stderr": subprocess.STDOUT}
        try:
            return Report(subprocess.run(words, cwd=folder, **how).stdout.decode(errors="replace"))
        finally:
            with self.ending:
                self.running.remove(jobs)
                self.ending.notify_all()

    def built(self, crate, batch, jobs):
        """Judges edits in one check from nothing, of the functions that they name and of what these call, over the libraries
        that the gate built."""
        folder, texts = tempfile.mkdtemp(dir=self.scratch), {}
        for part in ("src", "specs", "proofs"):
            if os.path.isdir(f"{crate.folder}/{part}"):
                shutil.copytree(f"{crate.folder}/{part}", f"{folder}/{part}")
        for edit in batch:
            texts = edit.applied(texts, crate)
        for path, text in texts.items():
            with open(f"{folder}/{path}", "w", encoding="utf-8") as it:
                it.write(text)
        names = sorted({it for edit in batch for it in edit.named})
        words = [*over_built(ROOT, crate.name), "--jobs", str(jobs), *(it for name in names for it in ("--only", name))]
        how = {"stdin": subprocess.DEVNULL, "stdout": subprocess.PIPE, "stderr": subprocess.STDOUT}
        report = Report(subprocess.run(words, cwd=folder, **how).stdout.decode(errors="replace"))
        bad = report.uncompiled(texts, batch)
        for edit in batch:
            if not report.is_whole:
                self.say(edit.label, BAD, bad.get(edit) or f"the check gave no verdict: {report.text.strip()[-200:]}")
            else:
                self.say(edit.label, *report.verdict(crate, edit))
        self.note(f"{crate.name}: a check of {len(batch)} edits")

    def say(self, label, fared, why):
        """A line of an edit, or of a control: a right body, which fares well where it isn't refused."""
        is_control = label.startswith("edits/controls/")
        with self.lock:
            if is_control:
                told = "told apart" if fared not in (REFUSED, BAD) else "CONTROL FAILED"
                self.controls[told] += 1
                self.is_well &= told == "told apart"
                print(f"{told} {label}: {fared.lower()}: {why}", flush=True)
            else:
                self.fared[fared] += 1
                self.is_well &= fared == REFUSED
                print(f"{fared} {label}: {why}", flush=True)

    def note(self, text):
        print(f"[{int(time.monotonic() - self.began)} s] {text}", flush=True)

    def batches(self, name, files):
        """The edits of a crate, sorted into checks."""
        crate, batches = Crate(name), []
        for file in files:
            try:
                place(Edit(crate, file), batches, crate)
            except (BadEdit, OSError, UnicodeDecodeError) as why:
                self.say(os.path.relpath(file, ROOT), BAD, why)
        return [(crate, edits) for edits, _ in batches]

    def crate(self, name, batches):
        """Checks a crate without an edit, over which those with edits are made, and answers the checks that are left to do."""
        share(ROOT, f"{self.scratch}/{name}", name)
        self.note(f"{name}: a check without an edit, then {len(batches)} with edits")
        is_of_tests = any(it.is_of_tests for it, _ in batches)
        report = self.check(f"{self.scratch}/{name}/crates/{name}", PROCESSORS, is_of_tests=is_of_tests)
        for crate, _ in batches:
            crate.states = report.states
        if report.is_proved:
            return batches
        print("\n".join(report.text.split("\n")[-30:]))
        for edit in (it for _, edits in batches for it in edits):
            self.say(edit.label, BAD, f"{name} isn't proved without an edit, so nothing was tried")
        return []

    def batch(self, crate, batch, jobs):
        """Judges edits of which no two clash, in one check."""
        folder, texts = f"{tempfile.mkdtemp(dir=self.scratch)}/edited", {}
        share(f"{self.scratch}/{crate.name}", folder, crate.name)
        for edit in batch:
            texts = edit.applied(texts, crate)
        for path, text in texts.items():
            with open(f"{folder}/crates/{crate.name}/{path}", "w", encoding="utf-8") as it:
                it.write(text)
        report = self.check(f"{folder}/crates/{crate.name}", jobs, crate.turned(batch), crate.is_of_tests)
        shutil.rmtree(folder)
        self.note(f"{crate.name}: a check of {len(batch)} edits")
        bad = report.uncompiled(texts, batch)
        if not report.is_whole and len(batch) == 1:
            bad = bad or {batch[0]: f"the check gave no verdict: {report.text.strip()[-200:]}"}
        for edit, why in bad.items():
            self.say(edit.label, BAD, why)
        rest = [it for it in batch if it not in bad]
        if report.is_whole:
            left = []
            for edit in rest:
                fared, why = report.verdict(crate, edit)
                if fared == UNJUDGED and len(batch) > 1:
                    left.append(edit)
                else:
                    self.say(edit.label, BAD if fared == UNJUDGED else fared, why)
            self.apart(crate, left, jobs, len(left) < len(batch), "what calls a body that isn't covered wasn't judged")
        else:
            # What doesn't compile keeps the others from being judged; without it the check may have been killed.
            why = "some edit doesn't compile" if bad else "the check gave no verdict"
            self.apart(crate, rest, jobs, bool(bad), why)

    def apart(self, crate, edits, jobs, is_fewer, why):
        """Judges edits again: by halves, until each stands alone, unless some of those beside them are gone."""
        half = len(edits) if is_fewer else len(edits) // 2
        for part in filter(None, (edits[:half], edits[half:])):
            self.note(f"{crate.name}: {why}; checking {len(part)} again")
            self.batch(crate, part, jobs)


def lines_under(root, name):
    """The lines of crates.txt for a crate and those below it."""
    with open(f"{root}/crates.txt", encoding="utf-8") as it:
        lines = {line.split(":")[0].split()[0]: line for line in it if line.strip() and not line.startswith("#")}
    found, todo = {}, [name]
    while todo:
        crate = todo.pop()
        if crate in lines and crate not in found:
            found[crate] = lines[crate]
            todo += lines[crate].partition(":")[2].split()
    return {it: line for it, line in lines.items() if it in found}


def over_built(root, name):
    """The words of a check of a crate over the libraries of the repository below it, as they lie in crates/*/out/rlib."""
    said = subprocess.run(["rt", "doc"], stdin=subprocess.DEVNULL, stdout=subprocess.PIPE, check=True).stdout.decode()
    kit, lines = os.path.dirname(said.strip()), lines_under(root, name)
    of = lambda it: f"{root}/crates/{it}/out/rlib" if it in lines else f"{kit}/rlibs"
    top = "src/main.rt" if os.path.isfile(f"{root}/crates/{name}/src/main.rt") else "src/lib.rt"
    words = [f"{kit}/bin/rattle", "check", "--crate-name", name, top]
    for it in ["std", *lines[name].partition(":")[2].split()]:
        words += ["--extern", f"{it}={of(it)}/{it}.rlib"]
    for it in [f"{kit}/rlibs", *(of(it) for it in lines if it != name)]:
        words += ["-L", f"dependency={it}"]
    words += ["--antt-project", f"{kit}/rattle/logic/antt-project.json", "--logic-built", f"{kit}/logic_built"]
    return [*words, "--links", f"{name}="]


def share(root, to, name):
    """Copies a crate and those below it, and shares what earlier checks kept, so that only what an edit turns is checked.

    The checker writes most of what it keeps into new files, which take the old ones' places: these are shared
    by hard links. Of the libraries below rt removes all before it builds them anew.
    """
    lines = lines_under(root, name)
    os.makedirs(f"{to}/crates")
    with open(f"{to}/crates.txt", "w", encoding="utf-8") as it:
        it.writelines(lines.values())
    if os.path.exists(f"{root}/HANDLES"):
        shutil.copy(f"{root}/HANDLES", to)

    def shared(of, at):
        if of.endswith(".oantt") or "/out/rlib/" in of:
            try:
                return os.link(of, at)
            except OSError:
                pass  # It is another file system's, which shares nothing.
        return shutil.copy2(of, at)

    for it in lines:
        leave = shutil.ignore_patterns("must-fail", *(["rlib"] if it == name else []))
        shutil.copytree(f"{root}/crates/{it}", f"{to}/crates/{it}", True, leave, shared)


def free_memory():
    """In GB."""
    with open("/proc/meminfo", encoding="utf-8") as it:
        return int(re.search(r"MemAvailable:\s+(\d+)", it.read())[1]) / 1e6


def edits_in(folder):
    found = [f"{at}/{it}" for at, _, files in os.walk(folder) for it in files if it.endswith(".edit")]
    return sorted(found)


def crate_of(file):
    """The crate of an edit by its place: below edits/CRATE/, edits/controls/CRATE/ or edits/gate/CRATE/, or in crates/CRATE/must-fail/."""
    words = os.path.relpath(os.path.abspath(file), ROOT).split(os.sep)
    return words[2] if words[0] == "edits" and words[1] in ("controls", "gate") else words[1]


def gate(names):
    """Judges the edits of edits/gate of these crates, or of all, and returns the exit status."""
    with tempfile.TemporaryDirectory(prefix="edits-") as scratch:
        judge, todo = Judge(scratch), []
        for name in names or sorted(os.listdir(f"{ROOT}/edits/gate")):
            todo += judge.batches(name, edits_in(f"{ROOT}/edits/gate/{name}"))
        # The largest first, with the processors that its part of the edits comes to.
        todo.sort(key=lambda it: -len(it[1]))
        every = sum(len(edits) for _, edits in todo)
        with ThreadPoolExecutor(PROCESSORS) as pool:
            list(pool.map(lambda it: judge.built(*it, max(1, round(PROCESSORS * len(it[1]) / every))), todo))
        told = ", ".join(f"{count} {it}" for it, count in judge.fared.items())
        print(f"edits/gate: {told or 'none'}; in {(time.monotonic() - judge.began) / 60:.1f} minutes")
        return 0 if judge.is_well and judge.fared[REFUSED] else 1


def main(words):
    if words[:1] == ["--built"]:
        return gate(words[1:])
    of_gate, files = "--gate" in words, [it for it in words if it.endswith(".edit")]
    names = [it for it in words if it != "--gate" and it not in files]
    for it in [*names, *map(crate_of, files)]:
        if not os.path.isdir(f"{ROOT}/crates/{it}"):
            print(f"edits/run: there is no crate {it}")
            return 2
    chosen = {}
    for it in files:
        chosen.setdefault(crate_of(it), []).append(it)
    for name in names or sorted(os.listdir(f"{ROOT}/crates")) * (not files):
        kept = edits_in(f"{ROOT}/crates/{name}/must-fail") + edits_in(f"{ROOT}/edits/gate/{name}") if of_gate else []
        both = edits_in(f"{ROOT}/edits/{name}") + edits_in(f"{ROOT}/edits/controls/{name}")
        chosen.setdefault(name, []).extend(both + kept)
    with tempfile.TemporaryDirectory(prefix="edits-") as scratch:
        judge = Judge(scratch)
        planned = {name: judge.batches(name, edits) for name, edits in chosen.items() if edits}
        checks = [it for some in planned.values() for it in some]
        every = sum(len(edits) for _, edits in checks)
        minutes = (A_CHECK * (len(checks) + len(planned)) + AN_EDIT * every) / 60 / PROCESSORS + 1
        print(f"{every} edits in {len(checks)} checks, and a check without an edit for each of {len(planned)} crates:")
        print(f"some {minutes:.0f} minutes on {PROCESSORS} processors with nothing else to do, over what `rt check` kept,")
        print(f"and {judge.room:.0f} GB of memory at most", flush=True)
        for name in planned:
            if not os.path.isdir(f"{ROOT}/crates/{name}/out/incremental"):
                judge.note(f"{name}: nothing is kept, so its check without an edit takes longer")
        left = [it for name, some in planned.items() for it in judge.crate(name, some)]
        # The largest first: the end of a check often waits for one long proof. Each has the processors that
        # its part of the edits comes to.
        left.sort(key=lambda it: -len(it[1]))
        most = max(1, PROCESSORS - (len(left) > 1))
        jobs = lambda edits: max(1, min(most, round(PROCESSORS * len(edits) / every)))
        with ThreadPoolExecutor(PROCESSORS) as pool:
            list(pool.map(lambda it: judge.batch(*it, jobs(it[1])), left))
        used = resource.getrusage(resource.RUSAGE_CHILDREN)
        minutes, work = (time.monotonic() - judge.began) / 60, (used.ru_utime + used.ru_stime) / 60
        told = ", ".join(f"{count} {it}" for it, count in [*judge.fared.items(), *judge.controls.items()])
        print(f"{told}; in {minutes:.1f} minutes ({work:.1f} of one processor)")
        return 0 if judge.is_well and judge.fared[REFUSED] else 1


if __name__ == "__main__":
    sys.exit(main(sys.argv[1:]))
