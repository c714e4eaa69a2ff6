"""Reads what a check says of a crate, and judges edits by it."""
import collections
import os
import re

from functions import functions_of
from goals import is_meant, is_step

FUNCTION = re.compile(r"fn (\S+): (.*)")
ERROR = re.compile(r"(?:\./)?((?:src|specs|proofs)/\S+?):(\d+):\d+: error(?:\[[\w-]+\])?: (.*)")
NOTE = re.compile(r"note: src/\S+?:\d+:\d+: it is not proved .*?\(`([^`]+)`\)")
# Where an answer or an invariant fails so, it names a step of the body that is gone, and says nothing of any clause.
GONE = re.compile(r"has no field|is not in scope|has no `|is no name|cannot continue")
# What rests on a declaration that failed.
RESTS = re.compile(r"depends? on .*, which (?:was|were) (?:not admitted|rejected)")
FILES = ("Answers.antt", "Invariants.antt", "Proof.antt")

# How an edit fared.
REFUSED = "refused"
WRONG = "NOT REFUSED"
BAD = "NOT TRIED"
STEPS = "ONLY STEPS"
ANSWERS = "NEEDS NEW ANSWERS"
GOAL = "NEEDS A GOAL"
# What another edit in the same check kept from being judged: it is tried alone.
UNJUDGED = "NOT JUDGED"

# A function that an edit turns, or a closure in one. name: as the source has it. lone: its only clause's name,
# or "". is_in_cycle: whether it shares its proof with others. folders: where files of its proof may stand.
Part = collections.namedtuple("Part", "symbol name lone is_in_cycle folders")


class Report:
    """What a check says of a crate: the state of each function, and what wasn't proved."""

    def __init__(self, text):
        lines = [it for it in text.split("\n") if not it.startswith("so far: ")]
        self.text, self.states, self.errors, self.open = text, {}, [], collections.defaultdict(list)
        above, is_behind_error = [], False
        for line in lines:
            error, note, function = ERROR.match(line), NOTE.match(line), FUNCTION.match(line)
            if is_behind_error and line.startswith("  "):
                # The line behind an error may say what it is.
                self.errors[-1][2] += line[1:]
            is_behind_error = bool(error)
            if error:
                self.errors.append([*error.groups()])
            elif note:
                above.append(note[1])
            elif function:
                symbol, state = function.groups()
                listed = re.search(r"`search` did not prove (`[^`]*`(?:, `[^`]*`)*)", state)
                # What is noted of a function stands in front of its line.
                self.open[symbol] = [*above, *re.findall(r"`([^`]*)`", listed[1] if listed else "")]
                self.states[symbol], above = state, []
        self.is_proved = any(it.startswith("logic=proved") for it in lines)
        # A check of some functions ends with their number.
        self.is_whole = self.is_proved or any(it.startswith(("logic=not-proved", "only=")) for it in lines)

    def goals(self, part):
        """The goals of a function that aren't proved, and whether each was tried: an answer may name what is gone."""
        found = dict.fromkeys(self.open.get(part.symbol, []), True)
        for file, _, error in self.errors:
            if os.path.dirname(file) in part.folders and os.path.basename(file) in FILES and not RESTS.search(error):
                named = re.match(r"(?:unsolved \S+ in )?`([^`]*)`(?:: | is not admitted)(.*)", error)
                goal, why = named.groups() if named else ("", error)
                found[goal] = found.get(goal, True) and bool(named) and not GONE.search(why)
        if not part.is_in_cycle:
            return found
        own = f"{part.name}-"
        return {it.removeprefix(own): how for it, how in found.items() if it.startswith(own) or not it}

    def verdict(self, crate, edit):
        """How the edit fared, and why. Closures in a function are part of it."""
        parts = []
        for path, name in edit.turns:
            found = crate.parts(path, name, self.states)
            if not found:
                return UNJUDGED, f"the report doesn't name the function {name}"
            parts += found
        # An edit of a constant stands alone, so what fails fails by it.
        parts = parts or [Part(it, it.split("::")[-1], "", False, [folder_of(it)]) for it in self.states]
        has_files = any(crate.has_files(it) for it in parts if edit.turns or self.states[it.symbol] != "proved")
        failed = [(it, goal, how) for it in parts if self.states[it.symbol] != "proved" for goal, how in self.goals(it).items()]
        gone = [(it, goal) for it, goal, is_tried in failed if not is_tried]
        clauses = [(it, goal) for it, goal, _ in failed if not is_step(goal)]
        steps = [(it, goal) for it, goal, _ in failed if is_step(goal)]
        meant = [(it, goal) for it, goal, _ in failed if edit.goal and is_meant(edit.goal, it.name, goal, it.lone)]
        if gone:
            return ANSWERS, f"what they name is gone: {told(gone)}"
        if meant:
            return REFUSED, told(meant)
        if clauses and edit.goal:
            return WRONG, f"not at its goal: {told(clauses)}"
        if clauses:
            return (GOAL, told(clauses + steps)) if has_files else (REFUSED, told(clauses))
        if steps:
            return (ANSWERS if has_files else STEPS), told(steps)
        names = ", ".join(name for _, name in edit.turns) or "each function"
        other = "; ".join(f"{it.symbol}: {self.states[it.symbol][:200]}" for it in parts if self.states[it.symbol] != "proved")
        return (UNJUDGED, other) if other else (WRONG, f"{names} is still proved")

    def uncompiled(self, texts, batch):
        """The edits of functions that don't compile or can't be read, each with the error."""
        found, functions = {}, {path: functions_of(text) for path, text in texts.items()}
        for path, line, error in self.errors:
            for edit in batch:
                spans = [it.lines for p, name in edit.turns if p == path for it in functions[p][name]]
                if any(a <= int(line) <= b for a, b in spans) or not edit.turns and path in edit.paths:
                    found.setdefault(edit, f"it doesn't compile, so nothing was tried: {path}:{line}: {error[:200]}")
        return found


def folder_of(symbol):
    """The folder of a function's answers, invariants and measures."""
    return "/".join(["proofs", *symbol.split("::")[1:]])


def told(goals):
    """Goals in one line, with each function's name once."""
    found = collections.defaultdict(list)
    for part, goal in goals:
        found[part.symbol].append(f"`{goal}`" if goal else "its answers can't be read")
    return "; ".join(f"{symbol}: {', '.join(names)}" for symbol, names in found.items())
