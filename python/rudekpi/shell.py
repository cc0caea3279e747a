"""A session at a terminal. It explains typing errors: a line that is no command is not sent."""

from __future__ import annotations

import contextlib
import os
import sys
from typing import Optional

from .errors import RudekpiError
from .files import write_whole
from .network import Network
from .numbers import counted
from .script_words import COMMANDS, why_no_command

HISTORY = "~/.rudekpi_history"
OWN = {
    "help": "this text",
    "picture": "[FILE]: the network, for Graphviz",
    "transcript": "[FILE]: all that was written so far",
    "audit": "what the transcript has",
    "play": "FILE: a page that plays the transcript",
    "quit": "ends the session, as Ctrl-D does",
}


class Shell:
    """A network that is used line by line."""

    def __init__(self, net: Network) -> None:
        self.net, self.shown = net, 0

    def answer(self, line: str) -> str:
        """The answer to a line. Raises `EOFError` if the line ends the session."""
        word, _, rest = line.partition(" ")
        if word in ("quit", "exit"):
            raise EOFError
        if word in OWN:
            return self.own(word, rest.strip())
        why = why_no_command(line.encode("utf-8", "surrogateescape"))
        if why:
            return f"not sent: {why}\n"
        if not line:
            return ""
        self.net._session.tell(line)
        return self.new_lines()

    def new_lines(self) -> str:
        said = self.net.transcript()
        new, self.shown = said[self.shown :], len(said)
        return new

    def own(self, word: str, path: str) -> str:
        if word == "help":
            own = "".join(f"{name} {text}\n" for name, text in OWN.items())
            return (
                "".join(f"{name} {', '.join(kinds)}".rstrip() + "\n" for name, kinds in COMMANDS.items()) + "\n" + own
            )
        if word == "audit":
            found = self.net.audit()
            return (
                f"accepted: {counted(found.entries, 'entry', 'entries')}, {counted(found.epochs, 'epoch')}, "
                f"{counted(found.moves, 'move')}\n"
            )
        if word == "play":
            if not path:
                return "play wants a file's name, as in: play page.html\n"
            self.net.play(path)
            return f"written: {path}\n"
        text = self.net.picture() if word == "picture" else self.net.transcript()
        if not path:
            return text
        write_whole(path, text.encode())
        return f"written: {path}\n"


def prepare() -> None:
    """Gives a terminal history and completion, if readline is present."""
    try:
        import readline
    except ImportError:
        return
    words = sorted([*COMMANDS, *OWN])

    def complete(text: str, place: int) -> Optional[str]:
        found = [f"{word} " for word in words if word.startswith(text)]
        return found[place] if place < len(found) and readline.get_begidx() == 0 else None

    readline.set_completer(complete)
    readline.parse_and_bind("tab: complete")
    with contextlib.suppress(OSError):
        readline.read_history_file(os.path.expanduser(HISTORY))


def leave() -> None:
    with contextlib.suppress(ImportError, OSError):
        import readline

        readline.write_history_file(os.path.expanduser(HISTORY))


def talk(net: Network) -> int:
    """Reads and answers lines until they end, or until `quit`; returns the exit status."""
    is_terminal = sys.stdin.isatty()
    if is_terminal:
        prepare()
    shell = Shell(net)
    print(shell.new_lines(), end="")
    while True:
        try:
            # if this can't be read, the session ends
            line = input("> " if is_terminal else "").strip("\r")
        except EOFError:
            break
        except KeyboardInterrupt:
            print("\ncut short; `quit` or Ctrl-D ends the session" if is_terminal else "")
            continue
        try:
            text = shell.answer(line)
        except EOFError:
            break
        except KeyboardInterrupt:
            print("\ncut short; `quit` or Ctrl-D ends the session" if is_terminal else "")
        except (OSError, ValueError, TypeError, MemoryError, RudekpiError) as error:
            print(f"! {error}")
            if net._session.trouble():
                return 1
        else:
            print(text, end="", flush=True)
    if is_terminal:
        print()
        leave()
    return 0
