"""Reads must-fail edits, finds the functions that each turns, and sorts them into checks."""
import os
import re

from functions import functions_of
from report import FILES, Part, folder_of

ROOT = os.path.dirname(os.path.dirname(os.path.abspath(__file__)))


class BadEdit(Exception):
    """Why an edit can't be tried."""


class Crate:
    def __init__(self, name):
        self.name, self.folder, self.texts = name, f"{ROOT}/crates/{name}", {}
        for at, _, files in os.walk(f"{self.folder}/src"):
            for it in files:
                with open(f"{at}/{it}", encoding="utf-8") as text:
                    self.texts[os.path.relpath(f"{at}/{it}", self.folder)] = text.read()
        self.functions = {path: functions_of(text) for path, text in self.texts.items()}
        # What a check without an edit says of each function, by the checker's name.
        self.states = {}
        # Whether each of its modules is compiled for tests alone.
        modules = re.findall(r"(?m)^(#\[cfg\(test\)\]\n)?(?:pub )?mod \w+;", self.texts.get("src/lib.rt", ""))
        self.is_of_tests = bool(modules) and all(modules)

    def turned(self, edits):
        """The checker's names of the functions that the edits turn, or none where it doesn't name each: then all are checked."""
        found = {self.symbol(path, name, self.states) for it in edits for path, name in it.turns}
        return sorted(found) if all(it.turns for it in edits) and None not in found else []

    def resting_on(self, names):
        """The last names of what calls these functions, and of what calls those of them that have no clause, and so on."""
        found, todo = set(), set(names)
        every = [it for of_file in self.functions.values() for some in of_file.values() for it in some]
        while todo:
            name = todo.pop()
            for it in every:
                if name in it.words[2:] and last(it.name) not in found:
                    found.add(last(it.name))
                    todo |= {last(it.name)} if it.is_bare else set()
        return found

    def symbol(self, path, name, states):
        """The checker's name of a function, among those that its report has."""
        start = "::".join([self.name, *module_of(path), ""])
        if start + name in states:
            return start + name
        if "::" not in name:
            return None
        # Of `impl Oid<Vec<u8>>` the report has `Oid+Vec+u8`.
        plain = lambda it: it.replace("+", "").replace("Any", "").lower()
        # An impl whose name a type has already is called `ValidityPartsImpl`.
        ends = tuple(plain(it) for it in (f"::{name}", f"::{'Impl::'.join(name.rsplit('::', 1))}"))
        found = [it for it in states if plain(it).endswith(ends) and "::fn::" not in it]
        found = [it for it in found if it.startswith(start)] or found
        return found[0] if len(found) == 1 else None

    def parts(self, path, name, states):
        """What a report tells of a function apart: itself and the closures in it."""
        symbol = self.symbol(path, name, states)
        if not symbol:
            return []
        # Of one that the edit adds nothing stands here: no clause that an edit could name, and no cycle.
        functions, words = self.functions[path].get(name, []), symbol.split("::")
        clauses = [it for function in functions[:1] for it in function.clauses or self.clauses_of_trait(last(name))]
        cycle = functions[0].cycle if functions else ""
        folders = [folder_of(symbol), *(["/".join(["proofs", *module_of(path), f"+{cycle}"])] if cycle else [])]
        own = Part(symbol, last(name), clauses[0] if len(clauses) == 1 else "", bool(cycle), folders)
        at = len(words) - len(name.split("::"))
        inner = "::".join([*words[:at], "fn", *words[at:], ""])
        return [own, *[Part(it, last(it), "", False, [folder_of(it)]) for it in states if it.startswith(inner)]]

    def clauses_of_trait(self, name):
        """The clauses of a trait's function of this name."""
        every = [it for of_file in self.functions.values() for some in of_file.values() for it in some]
        return next((it.clauses for it in every if last(it.name) == name and it.is_of_trait and it.clauses), [])

    def has_files(self, part):
        """Whether a function has answers, invariants or measures of its own."""
        return any(os.path.isfile(f"{self.folder}/{it}/{file}") for it in part.folders for file in FILES)


class Edit:
    def __init__(self, crate, file):
        self.label = os.path.relpath(file, ROOT)
        with open(file, encoding="utf-8") as it:
            text = it.read()
        self.pairs, self.goal = list(pairs_of(text)), goal_of(text)
        # The checker's names of the functions that it turns, where it gives them.
        self.named = [it[10:].strip() for it in text.split("\n") if it.startswith("function: ")]
        if not self.pairs:
            raise BadEdit("it has no 'old:' and 'new:' pair")
        texts = self.applied({}, crate)
        self.paths, self.turns, self.cycles = list(texts), [], set()
        added, bare = [], []
        for path, text in texts.items():
            was = crate.functions[path]
            for name, now in functions_of(text).items():
                if [it.words for it in now] != [it.words for it in was.get(name, [])]:
                    (self.turns if name in was else added).append((path, name))
                    bare += [it for it in now if it.is_bare and name in was]
                    self.cycles |= {(path, it.cycle) for it in now if it.cycle}
        # The functions that it turns, or else those that it adds; of a constant it turns none.
        self.turns = self.turns or added
        self.shuns = crate.resting_on({last(it.name) for it in bare}).union(*[it.words for it in bare])

    def applied(self, texts, crate):
        """The texts with this edit in them: those given, or else the crate's."""
        texts = dict(texts)
        for path, before, old, new in self.pairs:
            if path not in crate.texts:
                raise BadEdit(f"stale: there is no file {path}")
            text = texts.get(path, crate.texts[path])
            at = place_of(old, before, text, path)
            texts[path] = text[:at] + new + text[at + len(old) :]
        return texts

    def clashes(self, other):
        """Whether the two can't be told apart in one check."""
        if not self.turns or not other.turns or set(self.turns) & set(other.turns) or self.cycles & other.cycles:
            return True
        mine, its = ({last(name) for _, name in it.turns} for it in (self, other))
        return bool(self.shuns & its or other.shuns & mine)


def module_of(path):
    return [it for it in path[4:-3].split("/") if it not in ("lib", "main", "mod")]


def last(name):
    return name.split("::")[-1]


def place_of(old, before, text, path):
    """Where the old text begins: it stands once, or it is the first behind the texts of the `after:` lines.

    Of these the first stands once, and each further one is the first behind the one before it.
    """
    kind, first = ("after", before[0]) if before else ("old", old)
    if text.count(first) != 1:
        raise BadEdit(f"stale: its '{kind}:' text is in {path} {text.count(first)} times, and not once: {first[:90]}")
    begin = behind = text.find(first)
    # All stand in one item of the file, so that a text that is gone isn't found in the next one.
    end = text.find("\n}", begin) if before else len(text)
    for it in [*before, old]:
        at = text.find(it, behind, end)
        if at < 0:
            raise BadEdit(f"stale: {path} hasn't this text behind '{first[:60]}': {it[:90]}")
        behind = at + len(it)
    return at


def pairs_of(text):
    """The path, the texts before, the old and the new text of each pair of lines of an edit."""
    path, old, before = None, None, []
    for line in text.split("\n"):
        if line.startswith("file: "):
            path = line[6:].strip()
            if not path.startswith("src/"):
                raise BadEdit(f"{path} isn't below src/: an edit of a contract or a proof shows nothing")
        elif line.startswith("after: "):
            before.append(line[7:])
        elif line.startswith("old: "):
            old = line[5:]
        elif line.startswith("new:"):
            if not path or not old:
                raise BadEdit("a 'new:' line stands before any 'file:' or 'old:' line")
            yield path, before, old, line[5:] if line.startswith("new: ") else line[4:]
            old, before = None, []
        elif line.strip() and not line.startswith(("goal: ", "function: ")):
            raise BadEdit(f"a line is no 'goal:', 'function:', 'file:', 'after:', 'old:' or 'new:' line: {line[:60]}")


def goal_of(text):
    """What has to fail, or "" where the edit doesn't say."""
    goals = [it[6:].strip() for it in text.split("\n") if it.startswith("goal: ")]
    if len(goals) > 1:
        raise BadEdit("it has more than one 'goal:' line")
    return goals[0] if goals else ""


def place(edit, batches, crate):
    """Puts an edit into the first batch that it fits into, or into one of its own."""
    for at, (edits, texts) in enumerate(batches):
        if not any(edit.clashes(it) for it in edits):
            try:
                batches[at] = [*edits, edit], edit.applied(texts, crate)
                return
            except BadEdit:
                pass
    batches.append(([edit], edit.applied({}, crate)))
