"""Reads the checker's names of goals, and whether one is what a `goal:` line of an edit means.

A goal is named by what has to be proved and where in the code: `returns-in-Ok-clause-took` is the clause
`took` at a return where some result is `Ok`, and `go_into-requires-clause-fits` the condition `fits` of the
call of `go_into`. In a cycle of calls, which has one proof, the function's name stands in front.
"""
import re

# What a body raises for its own steps: bounds of numbers and of slices, and the invariant and the measure
# of a loop or of a recursion. Where these alone fail, no clause was found to be false.
STEP = re.compile(
    r"(?:overflow_\w+|nonzero_\w+|(?:slice_|offset_)?bounds|index(?:_mut)?|range)(?:-.*)?"
    r"|(?:invariant|decreases)-.*|(?!returns).*-(?:init|preserved|smaller)(?:-.*)?"
)
# A clause of the function itself, and a condition of what it calls: each with the clause's name, where it has one.
RETURNS = re.compile(r"returns(?:-(?!clause-).*?)??(?:-clause-(?P<clause>\w+))?")
REQUIRES = re.compile(r"(?P<callee>\w+)(?:-.*?)??-requires(?:-(?!clause-).*?)??(?:-clause-(?P<clause>\w+))?")


def is_step(goal):
    return bool(STEP.fullmatch(goal))


def is_meant(line, function, goal, lone):
    """Whether the line means this goal of a function, whose only clause has the name `lone` (or which has several, or one without a name)."""
    of, colon, text = line.rpartition(": ")
    if colon and of != function:
        return False
    if text == goal:
        return True
    returns, requires = RETURNS.fullmatch(goal), REQUIRES.fullmatch(goal)
    clause, is_of, callee = text.rpartition(" of ")
    if is_of:
        return bool(requires) and requires["callee"] == callee and clause in ("requires", requires["clause"])
    # A function's only clause is its whole contract, and its goals don't tell the name.
    return bool(returns) and text == (returns["clause"] or lone or "ensures")
