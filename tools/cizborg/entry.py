"""Takes the words of a tool to the command that they name, and ends the process with its status."""
from __future__ import annotations

import importlib
import os
import signal
import sys
from pathlib import Path
from typing import Callable, NoReturn, Sequence

from .statuses import Status, Stop
from .table import Command, given_to

FOLDER = Path(__file__).resolve().parent / "commands"
HELP = ("--help", "-h")


def first_words() -> list[str]:
    """The first words of all tools."""
    return sorted(path.stem for path in FOLDER.glob("*.py") if not path.stem.startswith("_"))


def commands_of(first: str) -> tuple[Command, ...]:
    """The commands that begin with a word."""
    module = importlib.import_module(f"cizborg.commands.{first}")
    commands: tuple[Command, ...] = module.COMMANDS
    return commands


def all_commands() -> list[Command]:
    """The commands of all tools."""
    return [command for first in first_words() for command in commands_of(first)]


def forms(commands: Sequence[Command]) -> str:
    """The forms of commands, each with what it does."""
    wide = max(len(command.form()) for command in commands)
    return "".join(f"    block {command.form():<{wide}}  {command.does}\n" for command in commands)


def chosen(words: Sequence[str]) -> tuple[Command, Sequence[str]]:
    """The command that the words name, and the words behind its name."""
    if not words or words[0] not in first_words():
        raise Stop(f"there is no tool {words[0] if words else ''!r}; the tools are:\n{forms(all_commands())}".rstrip(), Status.WORDS)
    commands = commands_of(words[0])
    for command in commands:
        name = command.name.split()
        if list(words[: len(name)]) == name:
            return command, words[len(name) :]
    raise Stop(f"the forms of {words[0]} are:\n{forms(commands)}".rstrip(), Status.WORDS)


def answered(words: Sequence[str]) -> int:
    """The status of the command that the words name, once it has run."""
    if list(words) == ["--forms"]:
        sys.stdout.write(forms(all_commands()))
        return Status.DONE
    if len(words) == 2 and words[1] in HELP and words[0] in first_words() and " " in commands_of(words[0])[0].name:
        sys.stdout.write(forms(commands_of(words[0])))
        return Status.DONE
    command, rest = chosen(words)
    return command.run(given_to(command, rest))


def close_output() -> None:
    """Nobody reads standard output, or it is full: what is still to be written would fail again at the end."""
    os.dup2(os.open(os.devnull, os.O_WRONLY), sys.stdout.fileno())


def end_with(name: str, work: Callable[[], int]) -> NoReturn:
    """Ends the process with the status of some work: with a line on standard error where it stops."""
    status: int
    try:
        status = work()
        sys.stdout.flush()
    except Stop as stop:
        print(f"{name}: {stop}", file=sys.stderr)
        status = stop.status
    except MemoryError:
        print(f"{name}: there was not enough memory", file=sys.stderr)
        status = Status.MEMORY
    except OSError as error:
        print(f"{name}: {error}", file=sys.stderr)
        status = Status.FAULT
        close_output()
    except KeyboardInterrupt:
        status = 128 + signal.SIGINT
    sys.exit(int(status))


def main() -> NoReturn:
    """Runs the words of the process, and ends it."""
    end_with(f"block {sys.argv[1]}" if len(sys.argv) > 1 else "block", lambda: answered(sys.argv[1:]))
