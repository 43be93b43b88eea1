"""The command `why`, its examples, and the tables of the pages, whose words are those of its entries."""

import re

import why
from case import ROOT, Case, Check, Command

ENTRIES = why.entries()
PARTS = {name: why.parts(text) for name, text in ENTRIES.items()}
RULES = 40
STATUSES = 10
FOLDER = 'folder=$(mktemp -d); trap \'rm -rf "$folder"\' EXIT; cd "$folder"; dceidl() { bin/dceidl "$@"; }\n'


def of(*words):
    """The case of a command line, by the model."""
    status, out, notes = why.why(list(words))
    return Case("why: " + (", ".join(words) or f"{len(words)} words"), ["why", *words], out=out.encode(), notes=notes.encode(), status=status)


def helped(*words):
    """The case of `help` with words, which is `why` of all of them."""
    status, out, notes = why.why(["help", *words])
    return Case("why: by help, " + (", ".join(words) or f"{len(words)} words"), ["help", *words], out=out.encode(), notes=notes.encode(), status=status)


def example(name, at, part):
    """The case of an example: its lines are run in a folder of their own."""
    text = "\n".join(part.commands)
    return Command(f"why: the example of {name}, {at}", FOLDER + text, "".join(f"{line}\n" for line in part.shown).encode(),
                   slow="1048577" in text or "ulimit" in text)


EXAMPLES = [example(name, at, part) for name, of_name in PARTS.items() for at, part in enumerate(of_name, 1) if part.commands]


# ----------------------------------------------------------------------------------------------------------------------
# The pages


def page(name):
    return (ROOT / name).read_text(encoding="utf-8")


def table(text, *header):
    """The rows of the tables with this header."""
    head, found = f"| {' | '.join(header)} |", []
    lines = text.splitlines()
    for at in (at for at, line in enumerate(lines) if line == head):
        for line in lines[at + 2:]:
            if not line.startswith("|"):
                break
            found.append([cell.strip().replace("\\|", "|") for cell in re.split(r"(?<!\\)\|", line)[1:-1]])
    return found


def section(text, heading):
    """A section of a page, from its heading to the next of its level."""
    return text.split(f"\n## {heading}", 1)[1].split("\n## ", 1)[0]


def plain(text):
    """The words of a text: without marks of the page, and without references in brackets."""
    text = re.sub(r" \((section \d+|docs/[A-Z.a-z]+|`docs/[A-Z.a-z]+`|\*\*ours\*\*|`TypeRules`[^)]*)\)", "", text)
    return re.findall(r"[\w']+|[-+@^/\\]", text.replace("`", "").replace("*", "").replace("(ours: ", "(").lower())


def differs(where, cell, name, form):
    """What is wrong where a cell does not say what the entry of a name says of a form: the entry begins with the words of the cell, up to a `;`."""
    said = [part.wrong for part in PARTS.get(name, []) if any(each.startswith(form) for each in part.forms)]
    wanted = plain(re.sub(r"^otherwise, ", "", cell).split(";")[0])
    if len(said) == 1 and plain(said[0])[:len(wanted)] == wanted:
        return []
    return [f"{where}: the page has '{cell}', and the entry '{said}'"]


def of_idl():
    """docs/IDL.md, section 12 and the tables of rules."""
    text = page("docs/IDL.md")
    for what, when, *_ in table(section(text, "12."), "WHAT", "When", "Such a text", "Its line"):
        word = what.strip("`").split()[0]
        if word != "Rule":
            yield from differs(f"docs/IDL.md, {word}", when, word, "idl FILE")
    for header in (("N", "Name", "Rule", "Its place"), ("N", "Name", "Rule")):
        for number, name, rule, *_ in table(text, *header):
            said = PARTS.get(f"Rule {number}", [])
            if len(said) != 1 or plain(said[0].wrong) != plain(f"{name} {rule}"):
                yield f"docs/IDL.md, rule {number}: the page has '{rule}', and the entry '{said and said[0].wrong}'"


def of_pages():
    """The tables of the other pages."""
    for reason, when in table(section(page("docs/IDL.md"), "13."), "Answer", "When"):
        word = reason.strip("`").split()[0]
        yield from differs(f"docs/IDL.md, {word}", when, word, "refused: compat")
    for reason, when, _ in table(section(page("docs/FROM-A-CAPTURE.md"), "4."), "Reason", "Reported if", "Place"):
        yield from differs(f"docs/FROM-A-CAPTURE.md, {reason}", when, reason.strip("`"), "refused: pdu")
    for reason, when, _ in table(section(page("docs/NDR.md"), "17."), "Reason", "Exactly if", "Place"):
        yield from differs(f"docs/NDR.md, {reason}", when, reason, "refused: octets")
    text = page("docs/TEXT.md")
    for reason, when, *_ in table(text, "Reason", "When", "Such a text", "Its place"):
        yield from differs(f"docs/TEXT.md, {reason}", when, reason, "refused: text")
    for reason, when, *_ in table(text, "Reason", "When", "Such parameters", "Their lines", "Its path"):
        yield from differs(f"docs/TEXT.md, {reason.split()[0]}", when, reason.split()[0], "refused: value")


def of_readme():
    """The table of README: each line is that of an entry, which the page names in its row."""
    for status, line, name, meaning in table(section(page("README.md"), "Refusals"), "Status", "Line on standard error", "`why`", "Meaning"):
        form = line.strip("`").split("`")[0]
        yield from differs(f"README.md, {line}", meaning, name.strip("`"), form)
        yield from [] if f"status {status}" in ENTRIES else [f"README.md: there is no entry of status {status}"]


def without_entry():
    """The words that lines of standard error have, by the sources, and that have no entry."""
    source = "".join(page(f"crates/command_refusals/specs/{name}.antt") for name in ("Lines",))
    words = set(re.findall(r'_name [a-z_]+\.\w+ = codes "(\w+)"', source)) | set(re.findall(r'_text (?:\()?[a-z_]+\.\w+ = codes "(\w+)"', source))
    words |= {word for word in re.findall(r'codes "([A-Z]\w+) ', source) if word != "Rule"} | {"Trailing", "Truncated", "TooFewEnds"}
    wanted = words | {f"Rule {number}" for number in range(1, RULES + 1)} | {f"status {number}" for number in range(STATUSES)}
    return [f"why has no entry of {word}" for word in sorted(wanted - set(ENTRIES))]


def unlike_help():
    """Where the forms of commands that `--help` prints are not those of the entries of `help`."""
    text = page("crates/dceidl/src/lib.rt").split('pub const HELP: &str = "\\\n')[1]
    forms = [line.split(" ", 1)[1] for line in re.findall(r"^(?:usage: |       )(dceidl .*)$", text.split("\n\n")[0], flags=re.MULTILINE)]
    wanted = [form for form in forms if not form.startswith("--")]
    found = [part.forms[0].split(" ", 1)[1] for name, of_name in PARTS.items() if name.startswith("help") for part in of_name]
    return [f"--help and the entries differ in {form}" for form in sorted(set(wanted) ^ {form.replace("help COMMAND", "help [COMMAND]") for form in found})]


def unlike():
    """The entries that have not the form of one."""
    for name, of_name in PARTS.items():
        for part in of_name:
            if not part.forms or not part.wrong or bool(part.commands) != bool(part.shown):
                yield f"the entry of {name} lacks a part"
        if any(len(line) > 80 for line in ENTRIES[name].splitlines() if not line.startswith("    ")):
            yield f"the entry of {name} has a line of more than 80 columns"


CASES = [
    Check("why: each word has an entry", without_entry),
    Check("why: each entry has its parts", lambda: list(unlike())),
    Check("why: docs/IDL.md has the words of the entries", lambda: list(of_idl())),
    Check("why: the tables of compat, docs/NDR.md and docs/TEXT.md have the words of the entries", lambda: list(of_pages())),
    Check("why: README.md has the words of the entries", lambda: list(of_readme())),
    Check("why: --help has the forms of the entries of help", unlike_help),
    of(),
    *(helped(*name.split()[1:]) for name in ENTRIES if name.startswith("help")),
    helped("zzz"),
    helped("wrap", "x"),
    helped(""),
    *(of(*name.split()) for name in ENTRIES),
    of("Rule 30"),
    of("words refused"),
    of("rule", "30"),
    of("Rule", "41"),
    of("Rule30"),
    of("noarm"),
    of("BadNumbers"),
    of("Bad"),
    of("zzz"),
    of(""),
    of("Rule", "30", "31"),
    of("Rule", "", "30"),
    *EXAMPLES,
]
