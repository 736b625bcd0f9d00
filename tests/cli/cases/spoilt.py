"""Each input of each command, spoilt in turn. The inputs before it are plain, and so are those after it."""
from commands import COMMANDS, FILES
from setting import Case, Fifo, Folder, Unreadable, Zeros

TOO_LONG = Zeros(67_108_865)
EMPTY = {"set": "notjson", "short": "notjson", "cert": "notjson", "old": "notjson", "refusal": "notjson", "jobs": "fields 0", "rows": "fields 0"}

# how many bytes are cut off at its end, and why what is left is refused
CUTS = {"set": (3, "notjson"), "short": (3, "notjson"), "cert": (2, "notjson"), "old": (2, "notjson"), "refusal": (2, "notjson"), "jobs": (9, "fields 2"), "rows": (3, "fields 4")}


def spoilt(command, name):
    """The cases of one input."""
    plain = command.files()
    which = {"old": "cert", "refusal": "cert", "short": "set"}.get(name, name)

    def case(shows, files, says, status, **more):
        return Case(f"{shows} in the place of {name}: {command.words}", command.words, says, status, files, **more)

    def refused(shows, kind, reason):
        return case(shows, {**plain, name: kind}, f"refused {which} {reason}\n", 3)

    def unread(shows, kind, **more):
        return case(shows, {**plain, name: kind}, f"fault read {which}\n", 4, **more)

    cut, reason = CUTS[name]
    return [
        case("nothing", {other: plain[other] for other in plain if other != name}, f"refused {which} absent\n", 3),
        unread("a folder", Folder()),
        unread("a file that may not be read", Unreadable(FILES[name]), as_nobody=True),
        refused("an empty file", "", EMPTY[name]),
        refused("a file that ends early", FILES[name][:-cut], reason),
        refused("a pipe that ends early", Fifo(FILES[name][:-cut], 9), reason),
        refused("a file of one byte too many", TOO_LONG, "toolong"),
    ]


def in_pieces(command):
    """All inputs of a command are pipes."""
    files = {name: Fifo(text, 5) for name, text in command.files().items()}
    return Case(f"pipes in pieces of 5 bytes: {command.words}", command.words, command.says, 0, files)


CASES = [
    *(case for command in COMMANDS for name in command.files() for case in spoilt(command, name)),
    *(in_pieces(command) for command in COMMANDS if command.files()),
]
