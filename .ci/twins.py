"""Makes wrong bodies in copies of crates.

An edit is made in a twin of its function: a second function with the same contract and the same proof files. Each other
function of the copy becomes a stub, which loops for ever, and whose proof is a hole: so what a twin calls is taken by
its contract. A function that a trait asks for has no twin and becomes no stub: its edits are made in itself.
"""
import os
import re
import shutil
from dataclasses import dataclass, field, replace

from functions import function_at, functions_of, modules_of_types, path_of

PARTS = ("src", "specs", "proofs")

# The proof of a stub.
HOLE = """use Rattle.{crate}.proofs.{path}.Statement.{{statement}}

pub {name}_spec : {{M : Type 1}} → statement M
{name}_spec = ?
"""


@dataclass
class Edit:
    crate: str
    path: str
    only: str = ""
    pairs: list = field(default_factory=list)
    # The pairs that change text outside its function, as a constant. It is tried with others that have the same ones.
    outside: tuple = ()
    # The path of the function in which it is made: its own or a twin.
    tried: str = ""

    @property
    def title(self):
        return "%s/%s" % (self.crate, self.path.partition("/%s/" % self.crate)[2])


class Fault(Exception):
    """Why an edit cannot be tried, or was not refused."""


def read_edit(crate, path):
    """An edit with its pairs, each of a file, an old text and a new one."""
    edit = Edit(crate, path)
    file = old = None
    with open(path, encoding="utf-8") as source:
        for line in source.read().split("\n"):
            word, _, rest = line.partition(":")
            rest = rest.removeprefix(" ")
            if word == "# only":
                edit.only = rest.strip()
            elif word == "file":
                file = rest.strip()
            elif word == "old":
                old = rest
            elif word == "new" and file and old:
                edit.pairs.append((file, old, rest))
                old = None
    if not edit.only or not edit.pairs:
        raise Fault("it has no line '# only:', or no pair of 'old:' and 'new:' after a line 'file:'")
    return edit


def without_changes(edits):
    """An edit of each function that these edits change, which leaves its text as it is."""
    first = {edit.only: edit for edit in reversed(edits)}
    return [replace(edit, pairs=[(file, old, old) for file, old, _ in edit.pairs]) for edit in first.values()]


class Crate:
    """A crate's sources, and what edits make of them."""

    def __init__(self, name, folder):
        self.name = name
        self.folder = folder
        self.twins = 0

    def original(self, file):
        """The text of a file, given by its path below the crate."""
        path = os.path.join(self.folder, file)
        if not file.startswith(tuple(part + "/" for part in PARTS)) or not os.path.isfile(path):
            raise Fault("there is no file %s" % file)
        with open(path, encoding="utf-8") as source:
            return source.read()

    def sources(self):
        """The text of each source, by its path below the crate."""
        files = [os.path.relpath(os.path.join(folder, name), self.folder)
                 for folder, _, names in os.walk(os.path.join(self.folder, "src"))
                 for name in names if name.endswith(".rt")]
        return {file: self.original(file) for file in sorted(files)}

    def functions(self, edit):
        """The function whose text each pair of an edit changes, or nothing for text outside of functions."""
        found = []
        for file, old, _ in edit.pairs:
            text = self.original(file)
            if text.count(old) != 1:
                raise Fault("'%s' is in %s %d times, and not once" % (old, file, text.count(old)))
            found.append(function_at(text, text.index(old) + len(old)) if file.endswith(".rt") else None)
        return found

    def edited(self, edit, texts):
        """The texts of the files with the edit made in them, over what other edits made of them."""
        functions = self.functions(edit)
        own = {function for function in functions if function and function.name in edit.only.split("::")}
        if not own and set(functions) != {None}:
            names = sorted(function.name for function in functions if function)
            raise Fault("it changes %s, and not %s" % (" and ".join(names), edit.only))
        edit.outside = tuple(pair for pair, function in zip(edit.pairs, functions) if function not in own)
        edit.tried = edit.only
        if not edit.outside and len(own) == 1 and not next(iter(own)).is_of_trait:
            return self.with_twin(edit, own.pop(), texts)
        made = dict(texts)
        for file, old, new in edit.pairs:
            text = made.get(file) or self.original(file)
            if texts and (file, old, new) in edit.outside:
                continue
            if text.count(old) != 1:
                raise Fault("another edit changes '%s' of %s" % (old, file))
            made[file] = text.replace(old, new)
        return made

    def with_twin(self, edit, function, texts):
        """The texts with a twin of the function after it, in which the edit is made."""
        self.twins += 1
        name = "%s__%d" % (function.name, self.twins)
        edit.tried = edit.only.removesuffix(function.name) + name
        file = edit.pairs[0][0]
        twin = re.sub(r"\bfn %s\b" % function.name, "fn " + name, function.text, count=1)
        for _, old, new in edit.pairs:
            twin = twin.replace(old, new)
        text = texts.get(file) or self.original(file)
        return {**texts, file: text.replace(function.text, function.text + "\n\n" + twin, 1)}


class Copy:
    """A copy of a crate in which edits are made."""

    def __init__(self, crate, room):
        self.crate = crate
        self.room = room

    def make(self, edits, texts):
        """Makes the edits, with these texts in place of the crate's own."""
        for part in PARTS:
            own = os.path.join(self.crate.folder, part)
            if os.path.isdir(own):
                shutil.copytree(own, os.path.join(self.room, part))
        self.make_stubs(edits, texts)
        for edit in edits:
            self.copy_proofs(edit)

    def write(self, file, text):
        path = os.path.join(self.room, file)
        os.makedirs(os.path.dirname(path), exist_ok=True)
        with open(path, "w", encoding="utf-8") as target:
            target.write(text)

    def make_stubs(self, edits, texts):
        """Makes a stub of each function that none of these edits is made in."""
        tried, sources = {edit.tried for edit in edits}, {**self.crate.sources(), **texts}
        modules = modules_of_types(sources)
        for file, text in sources.items():
            lines = text.split("\n")
            for function in reversed(functions_of(text)):
                path = path_of(function, file, modules)
                if function.has_stub and path and path not in tried:
                    lines[function.first:function.last + 1] = function.stub()
                    self.take_as_proved(path)
            self.write(file, "\n".join(lines))

    def take_as_proved(self, path):
        """Gives a function a proof that is a hole, in place of its proof files."""
        own = os.path.join("proofs", *path.split("::"))
        for name in ("Answers.antt", "Invariants.antt"):
            if os.path.isfile(os.path.join(self.room, own, name)):
                os.remove(os.path.join(self.room, own, name))
        self.write(own + "/Proof.antt",
                   HOLE.format(crate=self.crate.name, path=path.replace("::", "."), name=path.rpartition("::")[2]))

    def copy_proofs(self, edit):
        """Gives a twin the proof files of its function."""
        own, twin = ("proofs/" + path.replace("::", "/") for path in (edit.only, edit.tried))
        source = os.path.join(self.crate.folder, own)
        if edit.tried == edit.only or not os.path.isdir(source):
            return
        for name in os.listdir(source):
            if os.path.isfile(os.path.join(source, name)):
                text = self.crate.original("%s/%s" % (own, name))
                self.write("%s/%s" % (twin, name),
                           text.replace(own.replace("/", ".") + ".", twin.replace("/", ".") + "."))
