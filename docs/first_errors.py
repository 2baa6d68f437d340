#!/usr/bin/env python3
"""The table of must-fail edits in CLAIMS.md: claim, edit, first error.

To be run at the top of the repository. The first errors are those that `rt ci`, `rt ci NAME` or `rt must-fail NAME` told, in a
line for each edit, also for one that an earlier run tried. They are read from the files OUTPUT, of which a later one counts
before an earlier one; without any from target/log/rt-ci, which .ci/run leaves.

    docs/first_errors.py [OUTPUT..]            prints the table
    docs/first_errors.py --write [OUTPUT..]    puts it into docs/CLAIMS.md; a row of whose edit nothing is told keeps its first error
    docs/first_errors.py --list                compares the claims and edits of docs/CLAIMS.md with the edits that there are; each
                                               edit must also be named with a rule or a demand, above the table
    docs/first_errors.py --check [OUTPUT..]    compares all of the table with the edits and with what was told of them. Each first
                                               error must be a fact that fails, and the one that the table tells; a `?` there tells none
    docs/first_errors.py --clear               puts `?` for every first error, for a run after proofs have changed; then --write

Of an error rt prints the first line, and of that 160 characters. rt itself passes over errors that only follow from another one
('was not admitted') and over names that an edit took away from a proof. A goal that has no answer in a proof file is told in a
note. The exit status is 1 where an edit was told nothing of, or something differs.
"""
import pathlib
import re
import sys

CLAIMS = pathlib.Path("docs/CLAIMS.md")
OUTPUT = pathlib.Path("target/log/rt-ci")
HEADER = ["| Claim | Edit | First error |", "|---|---|---|"]
ROW = re.compile(r"\| (.*) \| ([a-z_0-9]+/[a-z_0-9]+) \| (.*) \|")

# What rt tells of an edit, and where it is refused by an error, the line of that error.
TOLD = re.compile(r"rt: must-fail (\w+/\w+)\.edit: (.*)")
REFUSED = "refused, as it must be: "
# A goal without an answer, by its place in the edited source and its name, which may be cut off.
NOTE = re.compile(r"note: (?:\./)?(src/[^:\s]+):(\d+):(\d+): it is not proved that .*\(`([^`]+)(`?)")
# An error of a proof file, a file of laws or of definitions, in the declaration that it names.
ERROR = re.compile(r"(?:\./)?([^:\s]+)(?::\d+:\d+)?: error: (`[^`]+`): (.*)")

# What the checker says where a fact fails, and shorter words for it. Other errors (a name that is not there, a file or a text
# that cannot be read, a definition that is refused, a declaration that cites a refused one) show nothing of the claim.
FACTS = [
    (r"`omega`: the part `([^`|]*)` of the goal does not follow.*", r"`omega`: part `\1` of the goal does not follow"),
    (r"`omega`: the goal does not follow from what it read\. All of that holds.*", "`omega`: the goal does not follow, and fails at values that it names"),
    (r"`omega`: .*", "`omega`: the goal does not follow"),
    (r"`(search|grind)`: .*", r"`\1`: no proof"),
    (r"give a proof of that as the last argument.*", "the equation does not hold after rewriting"),
    (r"list the missing equation.*|`cc`: the equations do not join .*", "`cc`: the equation does not follow"),
    (r"`(rw|grw)`: no (occurrence|part) .*|`simp`: no equation of the list .*", "the equation does not speak of what is due"),
    (r".*the two (types|sides|indices) .*|expected type .*|`omega` does not read .*|`borrow\..*|`[^`]*` ≟ .*|computed as .*one side reads .*", "the fact that is due and the one that is proved differ"),
]
DIFFER = re.compile(
    r"differ (?:only )?where one has `([^`|]+)` \(expected\)(?:, right after `[^`]*`,?)? and the other has `([^`|]+)` \(found\)"
    r"|the two types are `([^`|]+)` \(expected\) and `([^`|]+)` \(found\)"
    r"|expected type `([^`|]+)`, but this has type `([^`|]+)`")
# Where what is found is cut off.
EXPECTED = re.compile(r"differ (?:only )?where one has `([^`|]+)`")
# The module of a name, in this repository's libraries or the toolchain's.
MODULE = re.compile(r"(?<![\w.])(?:Rattle|Prim|mathlib|native|lib|mir|borrow|denote|seplogic)\.(?:[\w'-]+\.)*")
NO_FACT = "no fact: "
UNKNOWN = "?"


def edits():
    """Crate and edit with its claim, in the order of crates.txt."""
    names = [line.split("#")[0].split(":")[0].split() for line in open("crates.txt")]
    folders = [path.parent.parent.name for path in pathlib.Path("crates").glob("*/must-fail/*.edit")]
    listed = [words[0] for words in names if words]
    for crate in listed + sorted(set(folders) - set(listed)):
        for edit in sorted(pathlib.Path("crates", crate, "must-fail").glob("*.edit")):
            yield f"{crate}/{edit.stem}", edit.read_text().split("\n")[0].lstrip("# ").strip()


def edited(edit, name):
    """The lines of a file of the crate as the edit leaves it."""
    crate, stem = edit.split("/")
    text, at = pathlib.Path("crates", crate, name).read_text(), ""
    for line in pathlib.Path("crates", crate, "must-fail", f"{stem}.edit").read_text().split("\n"):
        if line.startswith("file: "):
            at = line[len("file: "):].strip()
        elif line.startswith("old: "):
            old = line[len("old: "):]
        elif line.startswith("new:") and at == name:
            text = text.replace(old, re.sub(r"\A ", "", line[len("new:"):]))
    return text.split("\n")


def function_at(edit, name, line, column):
    """The function at a place of the edited crate: the one that begins there, or the one around a place within a line."""
    lines = edited(edit, name)
    begins = column == 1 or lines[line - 1][column - 1:].startswith("#[")  # a method begins with its attribute
    for candidate in lines[line - 1:] if begins else reversed(lines[:line]):
        found = re.search(r"\bfn (\w+)", candidate)
        if found:
            return found.group(1)
    return name


def difference(message):
    """The last place where what is expected and what is found are said to differ, if it is short; names without their module."""
    found = [[side for side in sides if side] for sides in DIFFER.findall(message)] or [[side] for side in EXPECTED.findall(message)]
    short = [[MODULE.sub("", side) for side in sides] for sides in found]
    short = [sides for sides in short if max(map(len, sides)) <= 40]
    return "`{}` expected, {} found".format(short[-1][0], f"`{short[-1][1]}`" if short[-1][1:] else "another") if short else None


def shortened(file, message):
    # A definition or a contract that is refused, or an answer in another goal's place.
    if file.startswith(("specs/", "src/")) or re.match(r"expected type `(goal|given|tie)\.", message):
        return NO_FACT + message[:80]
    if difference(message):
        return difference(message)
    for pattern, words in FACTS:
        found = re.match(pattern, message)
        if found:
            return found.expand(words) if "\\" in words else words
    return NO_FACT + message[:80]


def first_error(edit, said):
    """The first error of an edit, from what rt told of it; nothing where it told nothing."""
    if said is None:
        return None
    # BAD EDIT, NOT TRIED, NOT REFUSED, or refused only by a limit, or only because a proof file names what the edit took away.
    if not said.startswith(REFUSED):
        return NO_FACT + re.sub(r"refused, as it must be \((only [^,]*), .*?\): ", r"\1: ", said)[:160]
    line = said[len(REFUSED):]
    note = NOTE.match(line)
    if note:
        return f"{function_at(edit, note[1], int(note[2]), int(note[3]))}: `{note[4]}{'' if note[5] else '…'}`: not proved"
    error = ERROR.match(line)
    if error:
        place = re.sub(r"^(proofs|specs)/|(/(Answers|Invariants|Proof))?\.antt$", "", error[1])
        return f"{place}: {error[2]}: {shortened(error[1], error[3])}"
    return NO_FACT + line[:120]


def told(outputs):
    """What rt told of each edit in these outputs."""
    said = {}
    for output in outputs or [OUTPUT]:
        if not pathlib.Path(output).is_file():
            sys.exit(f"there is no output of rt ci in {output}")
        said.update(TOLD.findall(pathlib.Path(output).read_text(errors="replace")))
    return said


def table():
    """The lines of CLAIMS.md before the table, its rows by edit, and the lines behind it."""
    lines = CLAIMS.read_text().split("\n")
    if HEADER[0] not in lines:
        sys.exit("docs/CLAIMS.md has no table of edits")
    begin = lines.index(HEADER[0])
    end = next((place for place in range(begin, len(lines)) if not lines[place].startswith("|")), len(lines))
    rows = {}
    for line in lines[begin + 2:end]:
        found = ROW.fullmatch(line)
        if not found or found[2] in rows:
            sys.exit(f"docs/CLAIMS.md: not a row, or a second one of an edit: {line}")
        rows[found[2]] = (found[1], found[3])
    return lines[:begin], rows, lines[end:]


def row(edit, claim, error):
    return f"| {claim} | {edit} | {error} |"


def named_edits(line):
    """The edits that a row of a rule names, in its last column of four; what stands in backquotes there is a clause."""
    cells = line.split("|")
    return re.findall(r"[a-z0-9]+(?:_[a-z0-9]+)+", re.sub(r"`[^`]*`", "", cells[4])) if len(cells) == 6 else []


def differences(due, before, rows, said):
    """What docs/CLAIMS.md has to say otherwise, and, where it is given, what rt told otherwise."""
    if not due:
        yield "no must-fail edit was found"
    names = {edit.split("/")[1] for edit, _ in due}
    named = set(re.findall(r"\w+", " ".join(before)))
    for name in sorted(names - named):
        yield f"docs/CLAIMS.md names {name} with no rule"
    for name in sorted(name for line in before for name in named_edits(line) if name not in names):
        yield f"docs/CLAIMS.md names an edit that is not there: {name}"
    for edit in sorted(rows.keys() - dict(due).keys()):
        yield f"docs/CLAIMS.md has a row of an edit that is not there: {edit}"
    for edit, claim in due:
        if edit not in rows:
            yield f"docs/CLAIMS.md has no row of {edit}"
        elif rows[edit][0] != claim:
            yield f"docs/CLAIMS.md has other words for {edit}, which tries: {claim}"
        elif said is not None:
            error = first_error(edit, said.get(edit))
            if error is None:
                yield f"nothing was told of {edit}"
            elif NO_FACT in error:
                yield f"{edit} is not refused by a fact: {error.replace(NO_FACT, '')}"
            elif rows[edit][1] not in (error, UNKNOWN):
                yield f"docs/CLAIMS.md, first error: rt told {row(edit, claim, error)}"


def main(words):
    mode = words[0] if words and words[0].startswith("--") else ""
    outputs = words[1:] if mode else words
    if mode not in ("", "--write", "--list", "--check", "--clear") or outputs and mode in ("--list", "--clear"):
        sys.exit(__doc__)
    due = list(edits())
    before, rows, behind = table()
    said = None if mode in ("--list", "--clear") else told(outputs)
    if mode in ("--list", "--check"):
        found = list(differences(due, before, rows, said))
        print(*found, sep="\n", end="\n" if found else "", file=sys.stderr)
        return 1 if found else 0
    errors = {edit: UNKNOWN if mode == "--clear" else first_error(edit, said.get(edit)) for edit, _ in due}
    kept = {edit: cells[1] for edit, cells in rows.items()} if mode else {}
    lines = HEADER + [row(edit, claim, errors[edit] or kept.get(edit, UNKNOWN)) for edit, claim in due]
    if mode:
        CLAIMS.write_text("\n".join(before + lines + behind))
    else:
        print("\n".join(lines))
    return 1 if None in errors.values() else 0


if __name__ == "__main__":
    sys.exit(main(sys.argv[1:]))
