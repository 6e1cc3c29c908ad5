"""The wrong bodies of crates/*/wrong-bodies: which there are, and what each makes of its crate's files.

An edit names a file of src/ or specs/ and then pairs of an old and a new text. Each old text stands in the file once, when
the pairs before it are done, and the file is another one at the end. The name of an edit says which function, constant or
definition it edits.
"""

import difflib
import pathlib
import re

TOP = pathlib.Path(__file__).resolve().parent.parent
# Where an item begins that a wrong body may edit. A const parameter in a line of its own is none. A definition begins at the
# margin, and so does each of its equations.
ITEM = {
    "src": re.compile(r"( *)(?:pub(?:\([a-z]+\))? )?(?:(?:const |unsafe |extern \S+ )*fn|const(?!.*,$)|static) (\w+)"),
    "specs": re.compile(r"()(?!use )(?:(?:abbrev|unfoldable|pub|record) )*(\w[\w-]*)"),
}


def edits():
    """The files of all wrong bodies."""
    return sorted(TOP.glob("crates/*/wrong-bodies/*.edit"))


def made(edit):
    """The texts of the files that an edit changes, by their path in the crate; or None, and what keeps it from being made."""
    crate = edit.parent.parent
    path, old = None, None
    before, after = {}, {}
    for line in edit.read_text(encoding="utf-8").split("\n"):
        word, _, text = line.partition(": ")
        if word == "file":
            path = text
            if path.split("/")[0] not in ITEM or not (crate / path).is_file():
                return None, f"there is no file {path} of src/ or specs/"
            before.setdefault(path, (crate / path).read_text(encoding="utf-8"))
            after.setdefault(path, before[path])
        elif word == "old":
            old = text
            times = after[path].count(old)
            if times != 1:
                return None, f"the old text is there {times} times: {old.strip()}"
        elif line.startswith("new:"):
            after[path] = after[path].replace(old, line.removeprefix("new:").removeprefix(" "))
    if before == after:
        return None, "it changes nothing"
    items = {
        item_of(path, before[path].splitlines(True), first)
        for path, lines in changes(crate, after).items()
        for first, _, _ in lines
    }
    if edit.stem.split(".")[1] not in items:
        return None, f"its name doesn't say that it edits {', '.join(sorted(items))}"
    return after, None


def changes(crate, texts):
    """Of each file that has another text, what changes: see `changed`."""
    return {
        path: changed((crate / path).read_text(encoding="utf-8").splitlines(True), text.splitlines(True))
        for path, text in texts.items()
    }


def changed(old, new):
    """The first and the last line of each change, and the lines that stand in their place. Spaces at an end change nothing."""
    match = difflib.SequenceMatcher(None, [it.strip() for it in old], [it.strip() for it in new], autojunk=False)
    return [(i, max(j, i + 1), new[k:m] + old[j : i + 1]) for tag, i, j, k, m in match.get_opcodes() if tag != "equal"]


def item_of(path, lines, at):
    """The name of the function, the constant or the definition that a line of a file belongs to: the last that begins at it,
    or before it and further to the left."""
    margin = len(lines[at]) - len(lines[at].lstrip())
    begun = ((line, ITEM[path.split("/")[0]].match(lines[line])) for line in range(at, -1, -1))
    return next((item[2] for line, item in begun if item and (line == at or len(item[1]) < margin)), "")
