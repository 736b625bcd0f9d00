#!/usr/bin/env python3
"""Prints which definitions one has to read to understand some, file by file, with their lines of code; comments, blank lines and
imports don't count.

    bench/reading.py [--table] [CRATE/PAGE:NAME[,NAME..] ..] [--without CRATE/PAGE:NAME[,NAME..] ..]
    bench/reading.py --write

A page is a file of a crate's specs/ without its ending. A definition is the block of lines that it stands in. What a definition cites
of the code, a constant, an enum or a struct, counts too, with the lines of its declaration. A name that ends in ! counts alone: what it
cites isn't followed. Definitions of the toolchain, but for those of std, are followed too and counted apart. Without words it prints
what the clause of `run` rests on: first what it says of bounds alone, then what the headline adds, then bounds on the machine's clock, and then what is beyond these. With
--table it prints these as tables of Markdown, as docs/PROOFS.md has them. With --write it writes them there.
"""
import contextlib
import io
import os
import re
import shutil
import sys

ROOT = os.path.join(os.path.dirname(os.path.abspath(__file__)), "..", "crates")
KIT = os.path.join(os.path.dirname(os.path.realpath(shutil.which("rt") or "/opt/rattle/bin/rt")), "..", "rattle")
PROOFS = os.path.join(ROOT, "..", "docs", "PROOFS.md")
BEGIN, END = "<!-- The reading lists: made by bench/reading.py --write. -->\n", "<!-- The end of the reading lists. -->\n"
IMPORT = re.compile(r"^use Rattle\.(\w+)\.specs\.([\w.]+?)(?:\.\{([^}]*)\})?(?: as (\w+))?[ \t]*$", re.M)
DECLARED = re.compile(r"^use Rattle\.(\w+)\.specs\.declared\.([\w.]+?)(?:\.\{([^}]*)\})?(?: as (\w+))?[ \t]*$", re.M)
DEFINED = re.compile(r"(?:abbrev |unfoldable |opaque )?(?:pub )?(?:record |data )?([^\s:(){}]+)\s*[:({]")
CONSTRUCTOR = re.compile(r"  ([A-Z]\w*) :")
NAME = re.compile(r"[A-Za-z_][\w-]*(?:\.[A-Za-z_][\w-]*)?")
ITEM = re.compile(r"pub (?:const|enum|struct) (\w+)")
IMPL = re.compile(r"impl\b.* for (\w+)")
GHOST = re.compile(r"    ghost (\w+) = \{")

BOUNDS = ["run_plans/Bounding:IsBounding"]
HEADLINE = ["run_plans/Headline:IsProvedAnalysis,IsProvedCheck", "command_words/Spelled:analyse_words,check_words"]
CLOCKS = ["run_plans/OnClocks:IsOnClocks"]
REFUSALS = [
    "run_plans/Refused:IsProvedRefutation,IsProvedConfirmation", "run_plans/Settled:IsSettling", "run_plans/Upgraded:IsProvedUpgrade",
    "run_plans/Auditing:IsProvedAudit", "command_words/Spelled:refute_words,confirm_words,settle_words,upgrade_words,audit_words",
]
BEYOND = [
    "run_plans/Headline:IsHeadline,Analyses", "run_plans/Checked:ChecksWhatWasWritten,FindsValid,ChecksForAnotherSet,FindsOtherSet",
    "run_plans/Checked:ChecksWhatWasSettled,ChecksWhatWasUpgraded",
    "run_plans/Confirmed:ConfirmsWhatWasWritten,ConfirmsWhatWasSettled,FindsConfirmed,ChecksAndConfirms",
    "run_plans/Compared:AnalyseOneSet,RaisesNoBound,SettlesAfter,SettlesWhatWasAnalysed,SettlesWhatWasRefuted,FindsText,FindsRefusal",
    "run_plans/Twice:AreSteady!,IsCompleteCall!",
]
TIES = [
    "run_plans/Run:IsRun!,AsksInOrder!", "run_plans/Plans:AsksAll,AsksPart", "command_words/Words:words_seen",
    "command_inputs/Statuses:number_of", "outside_ports/Readings:AsksFor,ReadsOn", "outside_ports/Loads:Leaves",
    "outside_ports/Openings:FollowsOpening", "outside_ports/Ports:untold,uncounted",
    "outside_ports/src/file_shelf.rt:FileShelf.seen,FileShelf.start_gives",
    "outside_ports/src/opener.rt:SystemFiles.opens", "outside_ports/src/out_sink.rt:OutSink.seen",
    "block_top/Edge:Answers!,Runs!,GivenWords,GivesWords", "block_top/src/edge.rt:ProcessWords.gives",
]
LISTS = (
    ("`bounding`, the bounds alone", BOUNDS),
    ("`analysed` and `checked`, the headline", HEADLINE),
    ("`on_clocks`, the bounds on the machine's clock", CLOCKS),
    ("`refuted`, `confirmed`, `settled`, `upgraded` and `audited`", REFUSALS),
    ("`headline` and the laws of two calls", BEYOND),
    ("`IsRun` itself with `asked`, what fills its `Call`, and what the program's own shelf and sink show", TIES),
)


def place_of(crate, parts):
    """The file that an import names, or None where it is no page of the project's."""
    if parts[0] == "declared" or crate in ("std", "core") or not (is_own(crate) or os.path.isdir(os.path.join(KIT, crate))):
        return None
    for length in range(len(parts), 0, -1):
        page = crate + "/" + "/".join(parts[:length])
        if os.path.exists(file_of(page)):
            return page
    return None


def is_own(crate):
    """Is the crate one of the project's, and not of the toolchain?"""
    return os.path.isdir(os.path.join(ROOT, crate))


def file_of(page):
    crate, _, rest = page.partition("/")
    return os.path.join(ROOT if is_own(crate) else KIT, crate, "specs", rest + ".antt")


def named(names):
    """The names of an import, each with the name that it has in the file."""
    for name in names.split(","):
        first, _, local = name.strip().partition(" as ")
        yield first, local or first


def source_of(crate, parts):
    """The page of code that `declared` names: a crate's root, or one of its modules."""
    for module in ("/".join(parts), "lib"):
        if module and os.path.exists(os.path.join(ROOT, crate, "src", module + ".rt")):
            return f"{crate}/src/{module}.rt"
    return None


class Read:
    """A file that is read once."""

    def __init_subclass__(cls):
        cls.pages = {}

    @classmethod
    def at(cls, page):
        if page not in cls.pages:
            cls.pages[page] = cls(page)
        return cls.pages[page]


class Code(Read):
    """A file of code: the lines of the declaration of each constant, enum and struct, and of each ghost member of an impl."""

    def __init__(self, page):
        with open(os.path.join(ROOT, page), encoding="utf-8") as file:
            lines = file.read().split("\n")
        self.lines_of, owner = {}, ""
        for number, line in enumerate(lines):
            impl, ghost, found = IMPL.match(line), GHOST.match(line), ITEM.match(line)
            owner = impl.group(1) if impl else owner
            if ghost:
                end = next(place for place in range(number, len(lines)) if lines[place].endswith("};"))
                self.lines_of[f"{owner}.{ghost.group(1)}"] = lines[number:end + 1]
            if found:
                end = number
                while not lines[end].endswith((";", "}")) or (lines[number].endswith("{") and lines[end] != "}"):
                    end += 1
                self.lines_of[found.group(1)] = [line for line in lines[number:end + 1] if not line.lstrip().startswith("//")]


class Page(Read):
    """A file of definitions: its blocks, the block of each name, and where each imported name stands."""

    def __init__(self, page):
        with open(file_of(page), encoding="utf-8") as file:
            text = file.read()
        self.imported, self.aliases, self.block_of, self.declared = {}, {}, {}, {}
        for crate, place, names, alias in IMPORT.findall(text):
            target = place_of(crate, place.split("."))
            if target and names:
                self.imported.update({local: (target, name) for name, local in named(names)})
            elif target and alias:
                self.aliases[alias] = target
        for crate, place, names, alias in DECLARED.findall(text):
            self.declare(crate, place.split("."), names, alias)
        body = re.sub(r"^use [^\n]*\n", "", text, flags=re.M)
        self.blocks = [block.strip("\n").split("\n") for block in re.split(r"\n\s*\n", body) if block.strip()]
        for number, block in enumerate(self.blocks):
            self.take(number, block)

    def declare(self, crate, parts, names, alias):
        """What an import names of a crate's code: constants, a type by its name, or the variants of one."""
        if not os.path.isdir(os.path.join(ROOT, crate)):
            return
        if parts[-1] == "TheConstants":
            page = source_of(crate, parts[:-1])
            self.declared.update({local: (page, name) for name, local in named(names or "")})
        else:
            kind = parts[-2] if parts[-1] == "TheVariants" else parts[-1]
            page = source_of(crate, parts[:parts.index(kind)])
            self.declared.update({local: (page, kind) for _, local in named(names or alias or "")})

    def take(self, number, block):
        within = "  " if any(line.split()[-1:] == ["mutual"] for line in block) else ""
        for line in (line.removeprefix(within) for line in block):
            found = DEFINED.match(line) or (CONSTRUCTOR.match(line) if any("data " in other for other in block) else None)
            if found and not line.startswith("--"):
                self.block_of.setdefault(found.group(1), number)

    def code(self, number):
        """The lines of a block without its comments."""
        return [line for line in self.blocks[number] if not line.lstrip().startswith("--")]

    def cited(self, number):
        """What a block cites: a page and a name each. A page of code is one with an ending."""
        for word in set(NAME.findall("\n".join(self.code(number)))):
            first, _, second = word.partition(".")
            if first in self.aliases and second:
                yield self.aliases[first], second
            elif first in self.imported:
                yield self.imported[first]
            elif first in self.declared:
                yield self.declared[first]
            elif first in self.block_of:
                yield None, first


def read_from(starts):
    """All that one has to read from these definitions on: blocks of pages, and names of pages of code."""
    seen, waiting = set(), []
    for start in starts:
        page, _, names = start.partition(":")
        waiting += [(page, name) for name in names.split(",")]
    while waiting:
        page, name = waiting.pop()
        if page.endswith(".rt"):
            seen |= {(page, name)} if name in Code.at(page).lines_of else set()
            continue
        number = Page.at(page).block_of.get(name.rstrip("!"))
        if number is None or (page, number) in seen:
            continue
        seen.add((page, number))
        if name.endswith("!"):
            continue
        waiting += [(target or page, cited) for target, cited in Page.at(page).cited(number)]
    return seen


def listed(blocks):
    """Each page with its number of lines and what is read there."""
    for page in sorted({page for page, _ in blocks}):
        here = {place for other, place in blocks if other == page}
        if page.endswith(".rt"):
            yield page, sum(len(Code.at(page).lines_of[name]) for name in here), sorted(here)
        else:
            crate, _, rest = page.partition("/")
            names = [name for name, number in Page.at(page).block_of.items() if number in here]
            yield f"{crate}/specs/{rest}.antt", sum(len(Page.at(page).code(number)) for number in here), names


def own(blocks):
    """Those of the project, without those of the toolchain."""
    return {(page, place) for page, place in blocks if is_own(page.partition("/")[0])}


def lines_of(blocks):
    return sum(lines for _, lines, _ in listed(own(blocks)))


def behind(blocks):
    """How many lines of the toolchain's definitions stand behind these, crate by crate."""
    crates = {}
    for page, lines, _ in listed(set(blocks) - own(blocks)):
        crate = page.partition("/")[0]
        crates[crate] = crates.get(crate, 0) + lines
    if not crates:
        return ""
    each = ", ".join(f"`{crate}` {lines}" for crate, lines in sorted(crates.items()))
    return f"They cite {sum(crates.values())} lines of the toolchain's definitions, without those of its `std`: {each}."


def show(title, blocks):
    print(title)
    for page, lines, names in listed(blocks):
        print(f"  {lines:4} {page}: {', '.join(names)}")
    print(f"  {lines_of(blocks):4} lines")
    if behind(blocks):
        print(behind(blocks))


def table(title, blocks):
    """The same as a table of Markdown, a row for each crate."""
    print(f"{title}\n")
    print("| Crate | Lines | Pages |\n|---|--:|---|")
    crates = {}
    for page, lines, _ in listed(own(blocks)):
        crates.setdefault(page.partition("/")[0], []).append((page.partition("/")[2], lines))
    for crate, pages in sorted(crates.items()):
        print(f"| `{crate}` | {sum(lines for _, lines in pages)} | {', '.join(f'`{page}` {lines}' for page, lines in pages)} |")
    print(f"\n{behind(blocks)}\n" if behind(blocks) else "")


def write():
    """Writes the tables into docs/PROOFS.md, between its two marks."""
    printed = io.StringIO()
    with contextlib.redirect_stdout(printed):
        main(["--table"])
    with open(PROOFS, encoding="utf-8") as file:
        head, _, rest = file.read().partition(BEGIN)
    tail = rest.partition(END)[2]
    with open(PROOFS, "w", encoding="utf-8") as file:
        file.write(f"{head}{BEGIN}\n{printed.getvalue().strip()}\n\n{END}{tail}")


def main(words):
    if words == ["--write"]:
        return write()
    tell = table if "--table" in words else show
    words = [word for word in words if word != "--table"]
    if not words:
        known = set()
        for title, starts in LISTS:
            read = read_from(starts)
            tell(f"{title}: {lines_of(read)} lines of code" + (f", {lines_of(read - known)} of them not listed above." if known else "."), read - known)
            known |= read
        return
    cut = words.index("--without") if "--without" in words else len(words)
    tell("To read:", read_from(words[:cut]) - read_from(words[cut + 1:]))


main(sys.argv[1:])
