"""Finds the functions of a file of code, and names them as the checker does."""
import collections
import re

# Words, strings, characters and lifetimes; comments and blanks are skipped.
TOKEN = re.compile(
    r"""(?P<skip>\s+|//[^\n]*|/\*.*?\*/)|b?r(?P<hashes>\#*)".*?"(?P=hashes)
    |b?"(?:\\.|[^"\\])*"|b?'(?:\\[^\n']+|[^\\'\n])'|'\w+|\w+|.""",
    re.S | re.X,
)
# name: without the module, as `f`, `Type::f`, or `TypeTrait::f` for a trait's method.
# is_bare: it has no clause of its own or of a trait, so its callers rest on its body. is_of_trait: it is a trait's.
# cycle: the cycle of calls that it is in, which has one proof, or "". lines: the first and the last.
# clauses: the names of what it ensures, "" for a clause without one. words: all its text, from `fn` on.
Function = collections.namedtuple("Function", "name is_bare is_of_trait cycle is_test lines clauses words")


def functions_of(text):
    """The functions of a file that aren't tests, by name. One name can stand there twice, under #[cfg(test)]."""
    found = collections.defaultdict(list)
    for it in File(text).functions:
        if not it.is_test:
            found[it.name].append(it)
    return found


class File:
    def __init__(self, text):
        tokens = [it for it in TOKEN.finditer(text) if it.lastgroup != "skip"]
        self.words = [it.group() for it in tokens] + [""]
        self.lines, line, last = [], 1, 0
        for it in tokens:
            line, last = line + text.count("\n", last, it.start()), it.start()
            self.lines.append(line)
        self.functions = []
        self.items(0, len(tokens), "", False, False)

    def behind(self, at, opening="{", closing="}"):
        """The place behind the bracket that closes the one at this place."""
        depth = 0
        while self.words[at]:
            depth += (self.words[at] == opening) - (self.words[at] == closing)
            at += 1
            if depth == 0:
                break
        return at

    def body(self, at):
        """Where the body begins of the function whose head goes on here (or its `;`), and whether a clause stands before."""
        depth, has_clause = 0, False
        while self.words[at]:
            word = self.words[at]
            depth += (word in "([") - (word in ")]")
            if depth == 0 and word == ";":
                break
            if depth == 0 and word == "{":
                before = self.words[at - 3 : at]
                if not {"requires", "ensures"} & set(before) and before[-1] != ":":
                    break
                has_clause, at = True, self.behind(at)
            else:
                at += 1
        return at, has_clause

    def clauses(self, at, body):
        """The names of the clauses in a function's head, which say what it ensures."""
        behind = [it + 1 for it in range(at, body) if self.words[it] == "ensures"]
        return [self.words[it].replace("{", "") for it in behind]

    def items(self, at, end, inside, is_of_trait, in_test):
        """Goes over the items from one place to another, below a module, a type or a trait."""
        is_test, cycle = in_test, ""
        while at < end:
            word = self.words[at]
            if word == "#":
                behind = self.behind(at + 1, "[", "]")
                is_test = is_test or "test" in self.words[at:behind]
                cycle = self.words[at + 4] if self.words[at + 2] == "cycle" else cycle
                at = behind
            elif word == "fn" and re.match(r"[^\W\d]", self.words[at + 1]):
                body, has_clause = self.body(at + 2)
                behind = self.behind(body) if self.words[body] == "{" else body + 1
                name, is_bare = inside + self.words[at + 1], not has_clause and not is_of_trait
                lines, clauses = (self.lines[at], self.lines[behind - 1]), self.clauses(at, body)
                words = self.words[at:behind]
                self.functions.append(Function(name, is_bare, is_of_trait, cycle, is_test, lines, clauses, words))
                at, is_test, cycle = behind, in_test, ""
            elif word in ("impl", "trait", "mod"):
                first = at + 1
                while self.words[at] not in ("{", ";", ""):
                    at += 1
                if self.words[at] == "{":
                    head, behind = self.words[first:at], self.behind(at)
                    name = impl_name(head) if word == "impl" else head[0]
                    is_of_trait = word == "trait" or "for" in head
                    self.items(at + 1, behind - 1, f"{inside}{name}::", is_of_trait, is_test)
                    at = behind
                is_test = in_test
            elif word == "{":
                at, is_test = self.behind(at), in_test
            else:
                is_test, at = (in_test if word == ";" else is_test), at + 1


def impl_name(head):
    """How the checker writes what an `impl` is for, from the words before its `{`: `Tag`, `TagDisplay`, `RefMutSource`."""
    own, depth = set(), 0
    while head[0] == "<" or depth:
        # The impl's own parameters are no part of the name.
        depth += (head[0] == "<") - (head[0] == ">")
        if depth == 1 and head[0] in "<,":
            own.add(head[2] if head[1] == "const" else head[1])
        head = head[2:] if head[:2] == ["-", ">"] else head[1:]
    head = head[: head.index("where")] if "where" in head else head
    at = head.index("for") if "for" in head else -1

    def written(words):
        if words[:1] == ["("]:
            # `()` is `Unit`, and `(A, B)` of two parameters `Tuple2`.
            count = len([it for it in words if re.match(r"[^\W\d]", it)])
            return f"Tuple{count}" if count else "Unit"
        text, depth = "", 0
        for at, word in enumerate(words):
            depth += (word == "<") - (word == ">")
            # Of a path the last name is written, and of one between `<` and `>` each.
            is_above = words[at + 1 : at + 2] == [":"] and not depth
            if re.match(r"[^\W\d]", word) and word not in ("mut", *own) and not is_above:
                text += word[0].upper() + word[1:]
            elif depth and word.isdigit():
                # Of `Context<0>` both are written.
                text += word
            else:
                text += {"&": "Ref", "mut": "Mut", "[": "Slice"}.get(word, "")
        return text

    # (an `impl` for each type that meets a bound, `impl<E: Encoder> Values for E`, is `AnyValues`)
    return (written(head[at + 1 :]) or "Any") + written(head[: max(at, 0)])
