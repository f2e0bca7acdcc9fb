"""Tries edits of one crate, many in one check, and reports for each whether the prover rejects it.

`Trial` first checks the unchanged functions, unless they are known to be proved and call little.
Then it checks groups of edits of different functions, each over a copy of the first check. An edit
is rejected if the prover does not prove a goal of a function that it changes. An edit without a
result in its group is tried separately. So is an edit outside the bodies of functions, for instance
of the head of an impl: first with the functions of its module, then, if none of these is rejected,
with the whole crate.

An edit is not rejected if a function waits for another one, or if its proof uses a name that the
edit removed. A stored answer proves its goal for one body, so it may reject a correct edit too:
such a rejection only means that it is stale. A rejection means more if the prover leaves open a
goal that it proved by `search` before, or finds values for which a goal is false. `Refusal`
distinguishes the two.
"""
import contextlib
import os
import re
import shutil
import subprocess
import tempfile
import time
from collections import Counter, namedtuple

# An error in a proof because a name is missing, or in a proof that cites such a proof. For a
# missing goal, the words after its module differ between kits.
NAMES = re.compile(
    r"has no field|is not in scope|has no `|was not admitted|`goal\.[^`]*`: module `"
    r"|, which was rejected, was not checked"
)
# An error of the front end: the text is not valid Rattle.
BAD_TEXT = re.compile(r"\berror\[[\w-]+\]", re.MULTILINE)
BAD_CLAUSE = re.compile(r"is not in scope|has no field|is no name|expected the end|cannot cont")
# A position in the proofs of a cycle of calls, whose folder has a name of its own.
CYCLE = re.compile(r"\./proofs/(\S*/)?\+[^/\s]*/")
# A line that reports what is not proved or not valid, and where.
ERROR = re.compile(r"(\./)?(src|specs|proofs)/\S+: error|note: src/\S+: it is not proved")
OPEN = re.compile(r"note: (src/\S+?):(\d+):\d+: it is not proved")
# The message for a goal that is false.
FALSE = "allow values at which this goal is false"

# The message that rejects an edit, and whether only a stored answer rejects it: one that no longer
# proves its goal, or one that is missing because the edit removed a name.
Refusal = namedtuple("Refusal", "told by_answer")
# An open goal: the file and line of its position, and the message.
OpenGoal = namedtuple("OpenGoal", "path line told")


def open_goals(said):
    """Returns the goals that `search` left open, with their positions in the code."""
    found = ((OPEN.match(line), line) for line in said)
    return [OpenGoal(it[1], int(it[2]), words_of(line)) for it, line in found if it]


def words_of(note):
    """Returns the message of a note, without its position."""
    return note.split(": ", 2)[-1]


def proofs_of(name):
    """Returns a pattern of the path of a function's proofs: its folder, or the folder of its cycle
    of calls, whose name has all functions of the cycle, each after a plus."""
    *above, last = (re.escape(it) for it in name.split("::")[1:])
    folders = "".join(it + "/" for it in above)
    return rf"\./proofs/{folders}(\+([^/\s]*\+)?{last}(\+[^/\s]*)?|{last})/"


def errors_at(said, at):
    """Returns the errors in proofs at a path: those of missing names, and the others."""
    errors = [it for it in said if re.match(rf"{at}\S*: error", it)]
    stale = [it for it in errors if NAMES.search(it)]
    return stale, [it for it in errors if it not in stale]


def by_search(told, stale):
    """Returns the rejection by open goals; `stale` are errors of missing names in stored answers."""
    false = [it for it in told if FALSE in it]
    return Refusal((false or told)[0], bool(stale) and not false)


def own_refusal(said, name, left=()):
    """Returns the rejection of a function's own goals, or None. `left` are its open goals."""
    stale, errors = errors_at(said, proofs_of(name))
    lines = [it for it in said if re.match(rf"fn {re.escape(name)}(::\S+)?: .*did not prove", it)]
    told = [re.search(r"`search` did not prove.*", it)[0] for it in lines]
    if errors and not left:
        return Refusal(errors[0].split(": error: ", 1)[-1], True)
    if errors or told:
        return by_search(told + [it.told for it in left], stale)
    return None


def refusal_alone(said, is_named):
    """Returns the rejection in a check of one edit, or None. No other body differs, so an open goal
    belongs to this edit, and a goal of a cycle of calls to the function or to one that calls it.
    `is_named`: the edit changes only functions that have names."""
    told = [it for it in said if ERROR.match(it) and not NAMES.search(it)]
    if is_named:
        told = [it for it in told if it.startswith("note: ") or CYCLE.match(it)]
    notes = [it for it in told if it.startswith("note: ")]
    if notes:
        return by_search([words_of(it) for it in notes], errors_at(said, r"\./proofs/")[0])
    return Refusal(told[0], True) if told else None


def unread(status, said):
    """Returns why the check of one edit has no result for its goals, or None."""
    errors = [it for it in said if ERROR.match(it)]
    bad = [it for it in errors if not it.startswith("./proofs/") and BAD_CLAUSE.search(it)]
    if status == 0:
        return STILL_PROVED
    if bad or BAD_TEXT.search("\n".join(said)):
        return f"it does not compile: {(bad or said)[0]}"
    if not said[-1].startswith(("only=", "logic=not-proved")):
        return f"its check did not finish: {said[-1]}"
    return None


# Why an accepted edit is not rejected.
STILL_PROVED = "it is still proved"

# The maximum number of edits in one check.
SIZE = 12
FUNCTION = re.compile(r"( *)(?:pub(?:\([^)]*\))? |const |final |unsafe |extern \"C\" )*fn (\w+)")


def modules_of(path):
    """Returns the path of the module of a source file."""
    parts = os.path.splitext(path)[0].split("/")[1:]
    return parts[:-1] if parts[-1] in ("lib", "main") else parts


class Function:
    """A function in the source: its module, its name, and the words of its impl's head."""

    def __init__(self, path, lines, at):
        self.modules = modules_of(path)
        indent, self.name = FUNCTION.match(lines[at]).groups()
        self.head = head_above(lines, at) if indent else []

    def is_as(self, other):
        """Returns whether `other` is the same function in another version of the text."""
        mine = (self.modules, self.name, self.head)
        return mine == (other.modules, other.name, other.head)

    def among(self, names):
        """Returns the prover's names that may denote this function."""
        depth = 1 + len(self.modules)
        found = [
            name
            for name in names
            if name.split("::")[1:depth] == self.modules
            and name.split("::")[-1] == self.name
            and len(name.split("::")) <= depth + 2
        ]
        near = [it for it in found if all(word in it.split("::")[depth] for word in self.head)]
        # (A type such as `&str` has another name there, so `near` may be empty.)
        return near or found


def head_above(lines, at):
    """Returns the names of the trait and the type of the impl or trait that contains a line."""
    begins = [it for it in range(at) if re.match(r"(pub )?(impl|trait)\b", lines[it])]
    text = " ".join(lines[begins[-1] if begins else at : at]).partition("{")[0].replace("->", "")
    while re.search(r"<[^<>]*>", text):
        text = re.sub(r"<[^<>]*>", " ", text)
    return re.findall(r"\b[A-Z]\w*", re.split(r"\bwhere\b|:", text)[0])


def function_at(path, text, at):
    """Returns the function whose first line or body contains a line, or None."""
    lines = text.split("\n")
    indent, closed = len(lines[at]) - len(lines[at].lstrip()), set()
    for number in range(at, -1, -1):
        found = FUNCTION.match(lines[number])
        if found and (number == at or len(found[1]) < indent):
            return None if len(found[1]) in closed else Function(path, lines, number)
        if number < at and lines[number].lstrip().startswith("}"):
            closed.add(len(lines[number]) - len(lines[number].lstrip()))
    return None


class Edit:
    """An edit of a crate: the lines that it replaces, with their replacements."""

    def __init__(self, written):
        self.name, self.pairs, path, old = written.name, [], "", None
        for line in written.text.split("\n"):
            if line.startswith("file: "):
                path = line[len("file: ") :].strip()
            elif line.startswith("old: "):
                old = line[len("old: ") :]
            elif line.startswith("new:") and path and old:
                self.pairs.append((path, old, line[len("new:") :].removeprefix(" ")))
                old = None
        # The changed functions (None for other code), their names for the prover, and the changed
        # modules (an empty name for the root and for files that are not code).
        self.functions, self.names, self.modules = [], [], set()

    def applied(self, texts, folder):
        """Returns the texts with this edit, by path, or None if a line does not occur exactly
        once."""
        texts = dict(texts)
        for path, old, new in self.pairs:
            if path not in texts:
                if not (folder / path).is_file():
                    return None
                texts[path] = (folder / path).read_text(encoding="utf-8")
            if texts[path].count(old) != 1:
                return None
            texts[path] = texts[path].replace(old, new)
        return texts

    def find(self, folder):
        """Finds the changed functions and modules, and returns whether the edit can be applied."""
        texts = self.applied({}, folder)
        for path, old, new in self.pairs if texts else []:
            whole = (folder / path).read_text(encoding="utf-8")
            is_there = path.startswith("src/") and old in whole
            line = whole[: whole.find(old)].count("\n")
            self.functions.append(function_at(path, whole, line) if is_there else None)
            self.modules.add("::".join(modules_of(path)) if is_there else "")
        return bool(texts) and bool(self.pairs)

    def has(self, path, texts, number):
        """Returns whether a line of a checked text, numbered from 1, is in a function that this
        edit changes."""
        found = function_at(path, texts[path], number - 1)
        return found is not None and any(found.is_as(it) for it in self.functions if it)

    def take_names(self, names):
        """Selects the names of its functions from the prover's names. There are none if a changed
        line is in no function, or in one without a name."""
        found = [it.among(names) if it else [] for it in self.functions]
        self.names = sorted({name for each in found for name in each}) if all(found) else []
        self.is_clear = bool(found) and all(len(each) == 1 for each in found)


class Trial:
    """The edits of one crate, tried over its proof. `laid` is the kit's object of the crate, over
    proved libraries; `say` prints a line about an edit."""

    def __init__(self, lib, laid, folder, edits, say, is_over=lambda: False):
        self.lib, self.laid, self.folder, self.edits, self.say = lib, laid, folder, edits, say
        # Whether no further check may begin.
        self.is_over = is_over
        # The names of the edits that are not rejected, of those that only a stored answer rejects,
        # and of those that were not tried as the time was over.
        self.missed, self.by_answer, self.untried = [], [], []
        # The names of those that the prover accepts.
        self.proved = []
        # Files of proofs that are left out of a check.
        self.without = ()

    def checked(self, texts, only, over):
        """Checks the crate with these texts replaced, and returns the status and the output's
        lines."""
        with tempfile.TemporaryDirectory(prefix="edit-") as room:
            for part in ("src", "specs", "proofs"):
                if (self.folder / part).is_dir():
                    shutil.copytree(self.folder / part, f"{room}/{part}")
            for path, text in texts.items():
                with open(f"{room}/{path}", "w", encoding="utf-8") as file:
                    file.write(text)
            for path in self.without:
                os.remove(f"{room}/{path}")
            words = [word for it in only for word in ("--only", it)]
            words = self.laid.words(["--jobs", "1", *words], keeps=False)
            ran = subprocess.run(
                [*self.lib.guarded(), self.lib.RATTLE, "check", *words, "--incremental", over],
                cwd=room, stdin=subprocess.DEVNULL, stdout=subprocess.PIPE,
                stderr=subprocess.STDOUT, text=True, errors="replace", check=False,
            )
        return ran.returncode, ran.stdout.rstrip("\n").split("\n")

    def over_seed(self, texts, only):
        """Runs a check over a copy of the proof of the unchanged crate."""
        with tempfile.TemporaryDirectory(prefix="over-") as over:
            link_all(self.seed, over)
            return self.checked(texts, only, over)

    @contextlib.contextmanager
    def begun(self, start, calls):
        """Prepares the check of the unchanged crate, and gives the edits that can be tried. `start`
        is the incremental folder of an earlier check, or None. `calls` maps each of the crate's
        functions to those that it calls, if the unchanged functions are known to be proved;
        otherwise it is None."""
        ready = [it for it in self.edits if it.find(self.folder)]
        for edit in self.edits:
            if edit not in ready:
                self.miss(edit, "it cannot be applied")
        with tempfile.TemporaryDirectory(prefix="seed-") as self.seed:
            if start:
                link_all(start, self.seed)
            self.is_whole, self.calls = False, calls
            names = self.as_they_stand(ready) if calls is None else [*calls]
            for edit in ready:
                if names is None:
                    self.miss(edit, "the unchanged crate is not proved")
                else:
                    edit.take_names(names)
            yield ready if names is not None else []

    def run(self, start, calls):
        """Tries all edits, and returns the names of those that were not rejected."""
        with self.begun(start, calls) as ready:
            self.in_groups(ready)
        return self.missed

    def as_they_stand(self, edits):
        """Checks the unchanged modules of some edits, and returns the names of their functions, or
        None if they are not proved."""
        modules = {"::".join(it.modules) for edit in edits for it in edit.functions if it}
        self.is_whole = not modules or "" in modules
        status, said = self.checked({}, [] if self.is_whole else sorted(modules), self.seed)
        if status:
            print(*said[-20:], sep="\n")
            return None
        return [line.split(": ")[0][len("fn ") :] for line in said if line.startswith("fn ")]

    def miss(self, edit, why):
        self.missed.append(edit.name)
        if why == STILL_PROVED:
            self.proved.append(edit.name)
        self.say(edit, f"NOT REJECTED: {why}")

    def in_groups(self, edits):
        """Tries edits in groups, then separately those without a result."""
        waiting, groups = [it for it in edits if it.is_clear], []
        alone = [it for it in edits if not it.is_clear]
        while waiting:
            groups.append(self.next_group(waiting))
            waiting = [it for it in waiting if it not in groups[-1][0]]
        if self.calls is not None:
            self.prove_what_is_called(groups)
        for group, texts in groups + [([edit], {}) for edit in alone]:
            if self.is_over():
                self.untried += [edit.name for edit in group]
                continue
            for edit in self.unsettled(group, texts) if len(group) > 1 else group:
                self.alone(edit)

    def prove_what_is_called(self, groups):
        """Proves the unchanged functions of all groups once, if that is less work than each group
        would do: a check of functions also checks those that they call."""
        changed = [{name for edit in group for name in edit.names} for group, _ in groups]
        all_changed = set().union(*changed)
        once = len(self.reached(all_changed)) + sum(map(len, changed))
        if once < sum(len(self.reached(names)) for names in changed):
            self.checked({}, sorted(all_changed), self.seed)

    def reached(self, names):
        """Returns the functions that are reachable from some by calls."""
        found, waiting = set(), {*names}
        while waiting:
            found |= waiting
            waiting = {it for name in waiting for it in self.calls.get(name, ())} - found
        return found

    def next_group(self, waiting):
        """Returns the next edits of different functions, and the texts with all of them. Edits of
        the functions with the most edits go first, since a group takes at most one of each."""
        counts = Counter(name for edit in waiting for name in edit.names)
        group, texts, used = [], {}, set()
        for edit in sorted(waiting, key=lambda it: -max(counts[name] for name in it.names)):
            with_it = None if used & {*edit.names} else edit.applied(texts, self.folder)
            if with_it and len(group) < SIZE:
                group, texts, used = [*group, edit], with_it, used | {*edit.names}
        return group, texts

    def unsettled(self, group, texts):
        """Tries a group, and returns the edits that it does not reject."""
        begun, left = time.monotonic(), []
        names = sorted({name for edit in group for name in edit.names})
        status, said = self.over_seed(texts, names)
        if not said[-1].startswith("only="):
            # If one of them does not compile or meets a limit, the others have no result.
            halves = [group[: len(group) // 2], group[len(group) // 2 :]]
            if len(group) == 2:
                return group
            for half in halves:
                with_half = {}
                for edit in half:
                    with_half = edit.applied(with_half, self.folder)
                left += self.unsettled(half, with_half) if len(half) > 1 else half
            return left
        for edit in group:
            if not self.is_refused(edit, said, texts):
                left.append(edit)
        took = time.monotonic() - begun
        print(f"{self.laid.name}: {len(group)} in one check, {took:.0f} s", flush=True)
        return left

    def is_refused(self, edit, said, texts):
        """Returns whether a goal of a function that an edit changes is rejected, and prints it.
        `texts` are the checked texts."""
        places = open_goals(said)
        left = [it for it in places if it.path in texts and edit.has(it.path, texts, it.line)]
        told = [it for it in (own_refusal(said, name, left) for name in edit.names) if it]
        # (A rejection by the prover is stronger than one by a stored answer.)
        return self.note(edit, min(told, key=lambda it: it.by_answer, default=None))

    def note(self, edit, refusal):
        """Records the rejection of an edit, if there is one."""
        if refusal:
            if refusal.by_answer:
                self.by_answer.append(edit.name)
            by = " by a stored answer" if refusal.by_answer else ""
            self.say(edit, f"rejected{by}: {refusal.told[:100]}")
        return bool(refusal)

    def alone(self, edit):
        """Tries one edit with its functions; if it changes none, with those of its module; without
        a result, with the whole crate."""
        texts = edit.applied({}, self.folder)
        if not edit.names and "" not in edit.modules and self.by_modules(edit, texts):
            return
        if not edit.names and not self.is_whole:
            self.is_whole = not self.checked({}, [], self.seed)[0]
            if not self.is_whole:
                self.miss(edit, "the unchanged crate is not proved")
                return
        status, said = self.over_seed(texts, edit.names)
        why = unread(status, said)
        if why:
            self.miss(edit, why)
        elif self.is_refused(edit, said, texts):
            return
        elif not self.note(edit, refusal_alone(said, bool(edit.names))):
            self.miss(edit, "goals fail only because of a name that it removed")

    def by_modules(self, edit, texts):
        """Tries an edit that changes no function with only the functions of its modules, which are
        proved unchanged, and returns whether it is rejected."""
        names = sorted(edit.modules)
        if self.calls is None and self.checked({}, names, self.seed)[0]:
            return False
        status, said = self.over_seed(texts, names)
        return not unread(status, said) and self.note(edit, refusal_alone(said, False))


def link_all(of, to):
    """Copies an incremental folder by hard links: a check replaces files, and never changes
    them."""

    def copy(one, other):
        try:
            return os.link(one, other) if one.endswith(".oantt") else shutil.copy2(one, other)
        except OSError:
            return shutil.copy2(one, other)

    shutil.copytree(of, to, symlinks=True, copy_function=copy, dirs_exist_ok=True)
