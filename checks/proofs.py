"""What is too long to read in the specs and proofs of the crates in FOLDER, and what nothing cites.

That is a line of more than 200 columns, imports left out, a lemma of more than eight premises or of more than twelve
explicit arguments, and a lemma that nothing cites: no proof, no face, no code and no comment of specs. A premise is what an
arrow of the statement follows, unless it binds names alone: a record with named fields holds those that belong together.
The explicit arguments are the premises and the names in parentheses, those of the modules around the lemma included.
LIMITS has a line for each crate with proofs: its name, and how many lines of proofs it has at most.
"""

import re
from collections import Counter
from pathlib import Path

COLUMNS = 200
PREMISES = 8
ARGUMENTS = 12

IMPORT = re.compile(r"(pub )?use ")
STATEMENT = re.compile(r"( *)(abbrev )?(?:pub )?([^\s:=(]+) : (.*)")
MODULE = re.compile(r"( *)module [^\s]+ (.*)where")
BINDER = re.compile(r"[({]([^(){}:]+) : ")
WORD = re.compile(r"[^\s(){}\[\],;.`]+")


def parts(statement):
    """Splits a statement at its own arrows, those inside of parentheses left alone."""
    depth, found = 0, [""]
    for letter in statement:
        depth += (letter in "([{⟨") - (letter in ")]}⟩")
        if letter == "→" and depth == 0:
            found.append("")
        else:
            found[-1] += letter
    return [part.strip() for part in found]


def split_binders(part):
    """How many names the groups at the front of a part bind in parentheses, and what is left after the groups."""
    names = 0
    while found := BINDER.match(part):
        if part[0] == "(":
            names += len(found[1].split())
        depth = 0
        for at, letter in enumerate(part):
            depth += (letter in "({") - (letter in ")}")
            if depth == 0:
                break
        part = part[at + 1 :].lstrip()
    return names, part


def counted(statement):
    """The premises of a statement, and its explicit arguments."""
    split = [split_binders(part) for part in parts(statement)[:-1]]
    premises = sum(1 for _, rest in split if rest)
    return premises, premises + sum(names for names, _ in split)


def whole(lines, at, indent):
    """The end of what begins at a line: the first line after it that isn't further in."""
    after = at + 1
    while after < len(lines) and re.match(indent + " +[^ ]", lines[after]):
        after += 1
    return after


def lemmas(lines):
    """Yields each name that is defined after its statement: its first line and the line after its last, the name, the
    statement, and how many arguments the modules around it add."""
    around = []
    for at, line in enumerate(lines):
        if line.strip():
            here = len(line) - len(line.lstrip())
            around = [(indent, names) for indent, names in around if indent < here]
        statement_end = whole(lines, at, " " * here) if line.strip() else at
        text = " ".join(part.strip() for part in lines[at:statement_end])
        if found := MODULE.match(" " * here + text if line.strip() else ""):
            around.append((here, split_binders(found[2])[0]))
            continue
        found = STATEMENT.fullmatch(line)
        if not found:
            continue
        indent, unfolds, name, _ = found.groups()
        statement = text.split(" : ", 1)[1]
        clause = re.compile(f"{indent}{re.escape(name)}[ =]")
        after = statement_end
        while after < len(lines) and clause.match(lines[after]):
            after = whole(lines, after, indent)
        if after > statement_end:
            yield at, after, name, statement, sum(names for _, names in around), unfolds


def too_long(path, lines):
    for number, line in enumerate(lines, 1):
        if len(line) > COLUMNS and not IMPORT.match(line):
            yield f"{path}:{number}: {len(line)} columns; {COLUMNS} at most"
    for at, _, name, statement, around, unfolds in lemmas(lines):
        # (a word that is no lemma)
        if unfolds and re.search(r"Type \d$", statement):
            continue
        premises, arguments = counted(statement)
        if premises > PREMISES:
            yield f"{path}:{at + 1}: {name} has {premises} premises; {PREMISES} at most"
        if arguments + around > ARGUMENTS:
            yield f"{path}:{at + 1}: {name} has {arguments + around} explicit arguments; {ARGUMENTS} at most"


def words(lines, comments=False):
    return Counter(word for line in lines for word in WORD.findall(line if comments else line.split("--")[0]))


def over_limits(files, folder, limits):
    """Yields a line for each crate that has more lines of proofs than allowed."""
    allowed = {name: int(most) for name, most in (line.split() for line in limits.read_text(encoding="utf-8").splitlines() if line[:1] not in ("", "#"))}
    counts = Counter()
    for path, lines in files.items():
        crate, kind = path.relative_to(folder).parts[:2]
        # (the last line of a file ends in a line feed, after which nothing is)
        counts[crate] += (len(lines) - 1) * (kind == "proofs")
    for crate, count in sorted(counts.items()):
        if count > allowed.get(crate, 0):
            yield f"{folder / crate}: {count} lines of proofs; {limits.name} allows {allowed.get(crate, 'none')}"


def found(folder, limits):
    """What is wrong, a line each."""
    files = {path: path.read_text(encoding="utf-8").split("\n") for path in sorted(path for kind in ("specs", "proofs") for path in folder.glob(f"*/{kind}/**/*.antt"))}
    code = words(line for path in folder.glob("*/src/**/*.rt") for line in re.sub("::", " ", path.read_text(encoding="utf-8")).split("\n"))
    wrong = [*over_limits(files, folder, limits)]
    everywhere = sum((words((line for line in lines if not re.match("use ", line)), "specs" in path.parts) for path, lines in files.items()), Counter())
    for path, lines in files.items():
        kind = path.relative_to(folder).parts[1]
        wrong += too_long(path, lines)
        if kind != "proofs":
            continue
        for at, after, name, statement, _, unfolds in lemmas(lines):
            if unfolds or re.match(r"goal\.", statement) or re.match("(invariant|decreases)-", name):
                continue
            own = words(lines[at:after])[name]
            if everywhere[name] + code[name] == own:
                wrong.append(f"{path}:{at + 1}: nothing cites {name}")
    return wrong
