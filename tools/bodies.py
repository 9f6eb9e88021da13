"""Wrong bodies: edits of a crate's functions, each of which the prover has to refuse.

A proof of a function cites the contracts of what it calls, and nothing of their bodies and proofs. So an edit is tried in a hollow room: a
folder with the crate's texts, where all functions but those that edits change only call a foreign function whose contract is false, so that
they meet their own. Such a check takes seconds, however large the crate, and edits in different functions share one.

Why a refusal is due to the edit: the same room without an edit is checked first, and an edit is judged only if all functions that it
changes are accepted there. What is written of a function's proof can refuse any other text, so an edit of such a function isn't judged.
The layout of `rt fmt` says where a function ends.
"""

import itertools
import os
import re
import shutil

from crates import files_in, link_or_copy, run_in, text_of, write

# What can be written of a function's proof.
WRITTEN = ("Answers.antt", "Invariants.antt", "Proof.antt")
# What the root of a crate in a hollow room has, and the body of a function there. What marks functions that call each other is left out.
THE_HOLE = 'unsafe extern "C" { safe fn the_hole() ensures { ⊥ }; }\n'
HOLLOW, CYCLE = "{ crate::the_hole(); unreachable!() }", re.compile(r"^ *#\[cycle\(\w+\)\]$", re.M)

TYPE = re.compile(r"^(?:pub(?:\([^)]*\))? )?(?:struct|enum) (\w+)", re.M)
HEAD = re.compile(r"( *)(?:pub(?:\([^)]*\))? )?(?:const )?(?:unsafe )?fn (\w+)")
# An input, what the definition says of it, and what the edited code says, which is something else.
DIFFERS = re.compile(r"\S.* => (.+), not (?!\1$).+", re.S)
UNTOLD = "NOT JUDGED: no line `differs: INPUT => ANSWER, not ANSWER` says what it turns"
UNACCEPTED = "NOT JUDGED: the prover doesn't accept the function without the edit"

# What the prover says of a goal that is not proved, before the line of the function, which ends such lines. Where the search for a goal
# broke off, that line has it.
GOAL = re.compile(r"note: (?:\./)?src/\S+?:\d+:\d+: it is not proved (.*)")
ENDED = re.compile(r"(?:fn \w+::(\S+)|(?:struct|enum|impl) .*?): (.*)")
BROKEN = re.compile(r"no proof: .*(`search` did not prove .*)")
# A goal of an operator in the body itself, which says nothing of a contract: that a sum fits, or that an index is below the length.
SAFETY = re.compile(r"\(`(overflow_|bounds-)[^`]*`\)")
# The function of a goal and the goal's name, which has the case before the name of the clause: `returns-in_err-x-clause-asks`.
CLAUSE, CASE = re.compile(r"(\S+): .*?\(`([^`]+)`\)"), re.compile(r"-(?:in|then|else)[-_].*?(?=-clause-|$)")


def last_name(words):
    """The last name of a path, without the parameters before and after it; none if there is no path."""
    while re.search(r"<[^<>]*>", words):
        words = re.sub(r"<[^<>]*>", "", words)
    return re.split(r"::|\s|&", words.strip())[-1]


def impl_of(block):
    """The type of an impl, the trait and its argument, each if there is one."""
    head = re.sub(r"\bwhere\b.*|\{.*", "", block)
    trait, _, type_ = head.rpartition(" for ")
    argument = re.search(r"\w<([^<>]*)(<.*)?>$", trait)
    return last_name(type_), last_name(trait), last_name(argument[1]) if argument else ""


def module_of(file):
    """The path of a file's module, with slashes."""
    path = re.sub(r"(/mod)?\.rt$", "", file.removeprefix("src/"))
    return "" if path in ("lib", "main") else path


def bounds(lines, head):
    """The lines that open and close the body of the function whose head is given; none of a method that a trait only names."""
    indent = HEAD.match(lines[head])[1]
    for opens, line in enumerate(lines[head:], head):
        if line.endswith(("{", "}")) and re.match(rf"{indent}\S", line):
            return opens, lines.index(f"{indent}}}", opens) if line.endswith("{") else opens
        is_of_another = opens > head and HEAD.match(line)
        if is_of_another or not line or not line.startswith(indent):
            return None
    return None


class Texts:
    """The texts of a crate by their files, and each in pieces: the path of a function with its body, or no path with what is between two."""

    def __init__(self, folder):
        self.folder = folder
        self.files = {os.path.relpath(it, folder): text_of(it) for it in files_in(f"{folder}/src")}
        self.names = {name for text in self.files.values() for _, name in HEAD.findall(text)}
        self.homes = {}
        for file, text in self.files.items():
            for name in TYPE.findall(text):
                self.homes.setdefault(name, set()).add(module_of(file))
        self.pieces = {file: list(self.pieces_of(file, text)) for file, text in self.files.items()}

    def path(self, file, block, name):
        """What the prover calls a function of an impl. It has a type's own methods in the module that declares the type."""
        type_, trait, argument = impl_of(block.removeprefix("impl"))
        homes = self.homes.get(type_, ())
        module = min(homes) if len(homes) == 1 and not trait else module_of(file)
        return "::".join(it for it in (*module.split("/"), type_ + trait + argument, name) if it)

    def pieces_of(self, file, text):
        """The pieces of a file that has this text."""
        lines, block, done = text.split("\n"), "", 0
        starts = [0, *itertools.accumulate(len(it) + 1 for it in lines)]
        for head, line in enumerate(lines):
            block = line if line.startswith("impl") else "" if line == "}" else block
            found = HEAD.match(line)
            inside = bounds(lines, head) if found and starts[head] >= done else None
            if inside:
                opens, closes = text.index("{", starts[inside[0]]), starts[inside[1] + 1] - 1
                yield "", text[done:opens]
                yield self.path(file, block, found[2]), text[opens:closes]
                done = closes
        yield "", text[done:]

    def has_written_proof(self, path):
        """Whether anything is written of a function's proof. A + is before its name there if it calls itself."""
        above, _, name = f"{self.folder}/proofs/{path.replace('::', '/')}".rpartition("/")
        return any(os.path.isfile(f"{above}/{mark}{name}/{it}") for mark in ("", "+") for it in WRITTEN)


class Edit:
    """An edit of a crate: the public calls that it is of, the clause for which it has to be refused if it names one, and the new bodies of
    functions by their paths. `why` says what is wrong with it, if anything is."""

    def __init__(self, path, texts):
        self.name, self.texts, self.bodies = os.path.basename(path), texts, {}
        fields = list(fields_of(text_of(path)))
        said = dict(fields)
        self.calls, self.clause = re.findall(r"[^,\s]+", said.get("of", "")), said.get("refused for", "")
        untold = "" if DIFFERS.fullmatch(said.get("differs", "")) else UNTOLD
        self.why = self.wrong_in_calls() or self.wrong_in_bodies(fields) or untold

    def wrong_in_calls(self):
        names = {it.split("::")[-1] for it in self.calls}
        return "" if names and names <= self.texts.names else "BAD EDIT: it names no public call, or one that isn't there"

    def wrong_in_bodies(self, fields):
        """Takes the new bodies."""
        edited, file, old = {}, "", ""
        for key, value in fields:
            if key == "file":
                file = value.strip()
            elif key == "old":
                old = value
            elif key == "new":
                text = edited.get(file, self.texts.files.get(file, ""))
                if text.count(old) != 1:
                    return f"BAD EDIT: the old text is in {file} {text.count(old)} times, and not once"
                edited[file] = text.replace(old, value)
        for file, text in edited.items():
            before, after = self.texts.pieces[file], list(self.texts.pieces_of(file, text))
            if [path or between for path, between in before] != [path or between for path, between in after]:
                return "BAD EDIT: it changes more than bodies of functions"
            changed = dict(new for one, new in zip(before, after) if one != new)
            if CYCLE.search(text) or any(map(self.texts.has_written_proof, changed)):
                return "NOT JUDGED: it is of a function with a written proof, which can refuse any other text"
            self.bodies |= changed
        return "" if self.bodies else "BAD EDIT: it changes nothing"


def fields_of(text):
    """The keys and values of an edit's file; lines of one key that follow each other are the lines of one value."""
    for key, group in itertools.groupby((it.partition(":") for it in text.split("\n") if it), lambda it: it[0]):
        yield key, "\n".join(rest.removeprefix(" ") for _, _, rest in group)


def clause_of(goal):
    """The function of a goal that is lost, and the clause of it: what a line `refused for: FUNCTION, CLAUSE` of an edit says."""
    found = CLAUSE.match(goal)
    return f"{found[1]}, {CASE.sub('', found[2])}" if found else ""


def told_by(said):
    """What a check says of each function: its verdict, and the goals that are not proved."""
    told, goals = {}, []
    for line in said.split("\n"):
        goal, ended = GOAL.match(line), ENDED.match(line)
        if goal:
            goals.append(goal[1])
        elif ended:
            told[ended[1]] = ended[2], goals or BROKEN.findall(ended[2])
            goals = []
    return told


class EditRoom:
    """A folder for the checks of a crate's edits, and what these keep there. The libraries below the crate are those in its repository, as
    they were last built."""

    def __init__(self, crates, name, texts, edits, folder):
        self.crates, self.name, self.texts, self.edits, self.folder, self.seconds = crates, name, texts, edits, folder, 0
        self.functions = set().union(*(it.bodies for it in edits))
        self.root = "src/main.rt" if crates.is_program(name) else "src/lib.rt"
        os.mkdir(f"{folder}/kept")
        for part, ignored in (("specs", None), ("proofs", shutil.ignore_patterns(*WRITTEN))):
            if os.path.isdir(f"{texts.folder}/{part}"):
                shutil.copytree(f"{texts.folder}/{part}", f"{folder}/{part}", ignore=ignored, copy_function=link_or_copy)

    def check(self, bodies, functions):
        """What the prover says of these functions, with these bodies in place of the crate's, and hollow ones for all that no edit changes."""
        for file, pieces in self.texts.pieces.items():
            parts = (bodies.get(path, text if path in self.functions or not path else HOLLOW) for path, text in pieces)
            write(f"{self.folder}/{file}", CYCLE.sub("", "".join(parts)) + (THE_HOLE if file == self.root else ""))
        _, said, seconds = run_in(self.folder, [*self.words(), *(word for it in sorted(functions) for word in ("--only", it))])
        self.seconds += seconds
        return told_by(said)

    def words(self):
        """The words that check the crate over the libraries below it."""
        kit, crates = self.crates.kit, self.crates
        libraries = {it: f"{kit}/rlibs/{it}.rlib" for it in ["std", *crates.of_kit[self.name]]}
        libraries |= {it: f"{crates.built(it)}/{it}.rlib" for it in crates.uses[self.name]}
        folders = [f"{kit}/rlibs", *map(crates.built, crates.with_below([self.name])[:-1])]
        return [
            *(f"{kit}/bin/rattle", "check", "--crate-name", self.name, self.root, "--jobs", "1", "--incremental", "kept"),
            *("--antt-project", f"{kit}/rattle/logic/antt-project.json", "--logic-built", f"{kit}/logic_built"),
            *(word for name, path in libraries.items() for word in ("--extern", f"{name}={path}")),
            *(word for it in folders for word in ("-L", f"dependency={it}")),
        ]

    def verdicts(self):
        """What the prover says of each edit. What isn't refused in a check of several may be so for another one, and is tried alone."""
        accepted = {path for path, (verdict, _) in self.check({}, self.functions).items() if verdict == "proved"}
        told = {it: UNACCEPTED for it in self.edits if not it.bodies.keys() <= accepted}
        left = [it for it in self.edits if it not in told]
        while left:
            batch = apart(left)
            told |= self.judged(batch)
            left = [it for it in left if it not in batch]
        for it in self.edits:
            if told[it] != UNACCEPTED and not told[it].startswith("refused"):
                told |= self.judged([it])
        return told

    def judged(self, edits):
        """What one check says of edits of different functions."""
        bodies = {path: text for it in edits for path, text in it.bodies.items()}
        told = self.check(bodies, bodies)
        return {it: self.verdict(it, told) for it in edits}

    def verdict(self, edit, told):
        """What a check says of an edit. The goals of a function are also those of closures there."""
        if not edit.bodies.keys() <= told.keys():
            return "BAD EDIT: it can't be read"
        of_edit = [path for path in sorted(told) if any(f"{path}::".startswith(f"{it}::") for it in edit.bodies)]
        lost = [f"{self.name}::{path}: {goal}" for path in of_edit for goal in told[path][1]]
        of_clauses = [it for it in lost if not SAFETY.search(it) and edit.clause in ("", clause_of(it))]
        if of_clauses:
            return f"refused: {of_clauses[0]}"[:400]
        return f"NOT REFUSED: no such clause lost a goal{f', and another goal is lost: {lost[0]}' if lost else ''}"[:300]


def apart(edits):
    """As many of these edits as are of different functions."""
    chosen, functions = [], set()
    for it in edits:
        if functions.isdisjoint(it.bodies):
            chosen.append(it)
            functions.update(it.bodies)
    return chosen
