#!/usr/bin/env python3
"""The texts of `pciplan explain`, made of docs/FORMATS.md, docs/APPLYING.md and docs/pciplan.1.

Usage: explain.py WORD       prints the text of a fault, by its number or name, or of a command
       explain.py            prints the list of all names
       explain.py --into F   writes the text of each word into a file of the folder F
       explain.py --write    writes the tables of crates/pciplan_front/src anew

Of a fault the manual page says what it is (DIAGNOSTICS), docs/FORMATS.md why it has no verdict, what it mostly is and
what to do, and docs/APPLYING.md what the faults of `apply` are. Of a command the manual page says all.
"""
import os
import re
import sys
import textwrap

TOP = os.path.join(os.path.dirname(os.path.abspath(__file__)), "..")
SOURCE = os.path.join(TOP, "crates", "pciplan_front", "src")
WIDTH = 80


def page(name):
    with open(os.path.join(TOP, "docs", name), encoding="utf-8") as file:
        text = file.read()
    if re.search(r"(?m)^(<{7}|={7}|>{7})( |$)", text):
        sys.exit("explain.py: docs/%s has both sides of a merge" % name)
    return text


def plain_roff(line):
    """A line of the manual page without its marks."""
    line = re.sub(r"\\f.|\\%", "", line)
    for mark, text in (("\\-", "-"), ("\\(aq", "'"), ("\\(ha", "^"), ("\\e", "\\")):
        line = line.replace(mark, text)
    return line


def macro_words(line):
    """What a line with a macro of fonts prints: .B and .I with blanks between the words, the others without."""
    macro, _, rest = line.partition(" ")
    words = [quoted or bare for quoted, bare in re.findall(r'"([^"]*)"|(\S+)', rest)]
    return (" " if macro in (".B", ".I", ".SY") else "").join(plain_roff(word) for word in words)


def prose(lines):
    """The lines of a paragraph as one text."""
    parts = [macro_words(line) if line.startswith(".") else plain_roff(line) for line in lines]
    return " ".join(" ".join(parts).split())


def section(name):
    """The lines of a section of the manual page."""
    return re.search(r"(?m)^\.SH %s\n((?:(?!\.SH ).*\n?)*)" % name, page("pciplan.1"))[1].splitlines()


def entries(name):
    """The entries of a section, each with its headings and its text."""
    found, lines = [], []
    for line in section(name) + [".SS"]:
        if line in (".TP", ".PP") or line.startswith(".SS"):
            if lines:
                found.append(entry(lines))
            lines = [] if line != ".TP" else [line]
        elif lines:
            lines.append(line)
    return found


def entry(lines):
    """One entry: .TP and its heading, perhaps .TQ and another, and its text."""
    headings, rest = [macro_words(lines[1])], lines[2:]
    while rest and rest[0] == ".TQ":
        headings.append(macro_words(rest[1]))
        rest = rest[2:]
    return headings, prose(rest)


def plain(text):
    """A text of a Markdown page without its marks."""
    return " ".join(re.sub(r"`|\*\*", "", text).split())


def rows(text, heading):
    """The rows of the table behind a heading, without the head."""
    lines = text[text.index(heading):].split("\n")
    start = next(at for at, line in enumerate(lines) if line.startswith("|--"))
    for line in lines[start + 1:]:
        if not line.startswith("|"):
            return
        yield [cell.strip() for cell in line.strip("|").split(" | ")]


def sections(text, mark):
    """The sections of a part of a Markdown page, each with its title and its paragraphs."""
    for part in re.split(r"(?m)^%s " % mark, text)[1:]:
        title, *paragraphs = part.strip().split("\n\n")
        yield title, paragraphs


def sentence(text):
    """A text of a Markdown page as sentences without marks; a command or option at its beginning keeps its case."""
    text = text[0].upper() + text[1:]
    return plain(text) + ("" if text.endswith(".") else ".")


class Advice:
    """What the faults mostly are and what to do: of a number, rows of a condition, a cause and an action."""

    def __init__(self):
        formats = page("FORMATS.md")
        self.rows = {}
        part = formats[formats.index("## What you see, what to do"):formats.index("## Address map")]
        told, table = part.split("### Faults from 60 on, and statuses 3 and 4")
        for title, paragraphs in sections(told, "###"):
            self.add_section(title, paragraphs)
        for seen, cause, action in rows(table, "| you see |"):
            self.add_row(seen, cause, action)

    def add(self, number, condition, cause, action):
        self.rows.setdefault(number, []).append((condition, cause, action))

    def add_section(self, title, paragraphs):
        cause, action = paragraphs
        if title == "Another of 3 to 8":
            for number in range(3, 9):
                condition = {3: "elsewhere", 5: "elsewhere"}.get(number, "")
                self.add(number, condition, cause, action)
            return
        for number, line in re.findall(r"`(\d+) [A-Za-z]+(?: (\w+))?`", title):
            condition = "in line " + line if line.isdigit() else ""
            self.add(int(number), condition, cause, action)

    def add_row(self, seen, cause, action):
        numbers = {"status 3": [2], "status 4": [1, 10]}.get(seen)
        numbers = numbers or [int(number) for number in re.findall(r"`(\d+) ", seen)]
        condition = plain(seen[seen.rindex("` of ") + 2:]) if "` of " in seen else ""
        for number in numbers:
            self.add(number, condition, cause, action)


def reasons():
    """Why the profile refuses a fault, by its number."""
    formats = page("FORMATS.md")
    part = formats[formats.index("### Why the profile refuses"):formats.index("### Which of several is named")]
    return {int(re.match(r"`(\d+)", title)[1]): plain(" ".join(paragraphs)) for title, paragraphs in sections(part, "####")}


def filled(text, indent="  ", hanging=0):
    """The lines of a paragraph."""
    return textwrap.wrap(text, WIDTH, initial_indent=indent, subsequent_indent=indent + " " * hanging,
                         break_on_hyphens=False, break_long_words=False)


def advice_lines(found):
    lines = []
    for condition, cause, action in found:
        where = ", " + condition if condition else ""
        lines += filled("Mostly%s: %s" % (where, sentence(cause)), hanging=2)
        lines += filled("Do%s: %s" % (where, sentence(action)), hanging=2)
    return lines


def apply_faults():
    """The faults of `apply`: of a number its texts, each with what stands and what to do."""
    found = {}
    for answer, stands, action in rows(page("APPLYING.md"), "## What each answer means"):
        match = re.match(r"`(\d+) ", answer)
        if match:
            found.setdefault(int(match[1]), []).append((plain(answer), plain(stands), plain(action)))
    return found


def faults():
    """The faults by number: number, name, first sentence and text."""
    advice, why, found = Advice().rows, reasons(), []
    for headings, meaning in entries("DIAGNOSTICS"):
        match = re.match(r"(\d+) (\w+)", headings[0])
        if not match:
            continue
        number = int(match[1])
        lines = [headings[0]] + filled(meaning)
        if number in why:
            lines += filled(why[number])
        lines += advice_lines(advice[number])
        found.append((match[1], match[2], summary(meaning), "\n".join(lines) + "\n"))
    for number, told in apply_faults().items():
        found.append(apply_fault(number, told))
    return found


def apply_fault(number, told):
    lines = []
    for text, stands, action in told:
        lines += [text] + filled(stands) + filled("Do: " + action, hanging=2)
    lines += filled("docs/APPLYING.md says more.")
    return str(number), told[0][0].split()[1], summary(told[0][1]), "\n".join(lines) + "\n"


def summary(text):
    """The first sentence of a text, or what of its parts between commas fits into a line."""
    text = re.sub(r"^[a-z][^:]*: ", "", text)
    parts = re.split(r"[.;:] (?=[A-Za-z])", text)[0].rstrip(".").split(", ")
    while sum(len(part) + 2 for part in parts) > 95:
        parts.pop()
    return ", ".join(parts) + "."


def synopses():
    """The words of each command, as the manual page's synopsis has them."""
    found, name = {}, None
    for line in section("SYNOPSIS"):
        if line.startswith(".SY"):
            name = line.split()[-1].strip('"')
            found[name] = ["pciplan " + name]
        elif not line.startswith("."):
            found[name].append(plain_roff(line))
    return {name: " ".join(parts) for name, parts in found.items()}


def commands():
    """The commands: name, first sentence and text."""
    told = {headings[0]: text for headings, text in entries("COMMANDS")}
    options = entries("OPTIONS")
    found = []
    for name, synopsis in synopses().items():
        lines = filled(synopsis, indent="", hanging=4) + filled(told[name])
        for headings, text in options:
            if any(re.search(r"%s\b" % heading.split()[0], synopsis.replace("[=", "=")) for heading in headings):
                lines += ["  " + heading for heading in headings] + filled(text, indent="    ")
        found.append((name, summary(told[name]), "\n".join(lines) + "\n"))
    return found


def all_names():
    """The list of all names, each with its first sentence."""
    lines = ["%s %s: %s" % (number, name, first) for number, name, first, _ in faults()]
    lines += ["%s: %s" % (name, first) for name, first, _ in commands()]
    return "\n".join(lines) + "\n"


def text_of(word):
    for number, name, _, text in faults():
        if word == number or word.lower() == name.lower():
            return text
    for name, _, text in commands():
        if word == name:
            return text
    return None


def literal(text):
    return '"\\\n%s"' % text.replace("\\", "\\\\").replace('"', '\\"')


FAULTS = """//! The texts of the faults, by rising number. `tests/explain.py --write` makes this file of the pages in docs/.
"""
COMMANDS = """//! The texts of the commands. `tests/explain.py --write` makes this file of the manual page.
"""
NAMES = """//! The list of all names. `tests/explain.py --write` makes this file of the pages in docs/.

/// The faults and the commands, a line for each: number and name, or name, and the first sentence of its text.
pub const NAMES: &str = %s;
"""
SHARED_NAMES = {"1": "READ_IO", "10": "WRITE_IO"}


def constant(number, name):
    """The name of the constant of a fault's text: that of the fault in capitals."""
    return SHARED_NAMES.get(number) or re.sub(r"(?<=[a-z])(?=[A-Z])", "_", name).upper()


def constants(rows):
    return "".join("\npub const %s: &str = %s;\n" % (name, literal(text)) for name, text in rows)


def write():
    told = [(constant(number, name), text) for number, name, _, text in faults()]
    named = [(name.upper(), text) for name, _, text in commands()]
    tables = {
        "fault_texts.rt": FAULTS + constants(told),
        "command_texts.rt": COMMANDS + constants(named),
        "names.rt": NAMES % literal(all_names()),
    }
    for name, text in tables.items():
        with open(os.path.join(SOURCE, name), "w", encoding="utf-8") as file:
            file.write(text)


def write_into(folder):
    """A file for each word: each number, each name as it is and in other cases, and each command."""
    told = {name: text for name, _, text in commands()}
    for number, name, _, text in reversed(faults()):
        told.update({word: text for word in (number, name, name.lower(), name.upper())})
    for word, text in told.items():
        with open(os.path.join(folder, word), "w", encoding="utf-8") as file:
            file.write(text)


def main(words):
    if words == ["--write"]:
        write()
    elif words[:1] == ["--into"]:
        write_into(words[1])
    elif not words:
        sys.stdout.write(all_names())
    else:
        text = text_of(words[0])
        if text is None:
            sys.exit("explain.py: no such word: " + words[0])
        sys.stdout.write(text)


if __name__ == "__main__":
    main(sys.argv[1:])
