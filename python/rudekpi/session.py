"""A run of the program: the commands to it, and its answers."""

from __future__ import annotations

import io
import itertools
import struct
from typing import Optional, Sequence

from .answers import STEP, Answers, Setting, refusal
from .batch import Asked, AskedTurns, Batch, Pending
from .errors import Garbled, Inherited, NoReply, NoSuchCommand, RudekpiError, text_of
from .library import NodeView
from .reading import read_accepted
from .replies import Reply
from .talk import Load, Talk

# how many bytes are asked before the program has to take some of them
UNSENT = 1 << 16
# beyond this many parts of output, the session looks for parts that were read, and drops them
MOST_CAME = 8


def range_of(text: bytearray, start: int, end: int) -> bytes:
    """A copy of a range of a text, made by one C call.

    It slices no bytearray: without memory for the slice, CPython frees an object whose count of exported
    buffers was never set, and prints a `SystemError`.
    """
    found: bytes = struct.unpack_from(f"{max(0, end - start)}s", text, min(start, end))[0]
    return found


class Session:
    """The talk with a run. Each command is asked by one C call, so none is half asked.

    The session never waits for one pipe while the other could go on, so no reply is too large. If a signal's
    handler asks a question in the middle of a function, the question is answered first. What that function
    made from an older `Answers` or `Load` is then dropped, since a later one is already there.
    """

    def __init__(self, words: Sequence[str], setting: Setting, given: Optional[io.FileIO] = None) -> None:
        self.names = setting.names
        # the commands that wait, by number, and the source of numbers
        self.asked: dict[int, Pending[object]] = {}
        self.numbers = itertools.count()
        self.reached = Answers(setting, self.asked)
        # no command below this number waits
        self.low = 0
        # whether no more commands are asked, and whether the end of the run was raised
        self.is_closed = self.is_told = False
        # about how many bytes are asked beyond those under way
        self.unloaded_bytes = 0
        self.talk = Talk(words, given)
        while self.answers.entries < 0 or self.answers.wrong:
            self.exchange()

    @property
    def answers(self) -> Answers:
        answers = self.reached
        while answers.later:
            answers = answers.later[0]
        self.reached = answers
        return answers

    @property
    def entries(self) -> int:
        return max(0, self.answers.entries)

    def trouble(self) -> Optional[RudekpiError]:
        ended = self.talk.ended
        return self.answers.wrong or (ended if not self.is_closed or isinstance(ended, Inherited) else None)

    def since(self, place: int) -> tuple[bytes, int]:
        """The lines from a place on, or all kept lines if they begin later, and the place after them.

        Waits until all commands are carried out. Raises `Garbled` if the program gave a wrong answer, and
        `Ended` in a child of the process that made the session.
        """
        self.wait_for_all()
        if self.answers.wrong:
            raise self.answers.wrong
        return self.lines_since(place)

    def lines_since(self, place: int) -> tuple[bytes, int]:
        if isinstance(self.talk.ended, Inherited):
            raise self.talk.ended
        answers = self.answers
        end = answers.said.rfind(b"\n", 0, answers.said_size) + 1
        return range_of(answers.said, max(0, place - answers.said_place), end), answers.said_place + end

    def batch(self, raises: bool = True, keeps: bool = True) -> Batch:
        return Batch(self, raises, keeps)

    def partner(self, number: int) -> Optional[int]:
        """None: the program has no such question."""
        return None

    def registers(self, number: int) -> Optional[NodeView]:
        """None, as for the next questions: the program has none of them."""
        return None

    def neighbours(self, number: int) -> Optional[list[int]]:
        return None

    def present(self) -> Optional[list[int]]:
        return None

    def edges(self) -> Optional[list[tuple[int, int]]]:
        return None

    def restless(self) -> list[int]:
        raise self._untold("does not tell who is at rest")

    def renumber(self) -> str:
        raise self._untold("numbers its entries once")

    def cost_of(self, word: str, numbers: Sequence[int]) -> int:
        raise self._untold(f"tells no cost of {word} beforehand")

    def silent_cost_of(self, word: str, numbers: Sequence[int]) -> Optional[int]:
        return self.cost_of(word, numbers)

    def reach(self, word: str, numbers: Sequence[int]) -> list[int]:
        raise self._untold(f"tells no reach of {word} beforehand")

    def is_at_rest(self, number: int) -> bool:
        raise self._untold("does not tell who is at rest")

    def count_rounds(self) -> None:
        raise self._untold("counts no rounds")

    def rounds(self) -> int:
        raise self._untold("counts no rounds")

    rounds_left = rounds

    def _untold(self, what: str) -> RudekpiError:
        """The error for a question that only the library answers."""
        if isinstance(self.talk.ended, Inherited):
            return self.talk.ended
        return NoSuchCommand(f"the program {what}: play the network by engine='library'")

    def moves_left(self) -> Optional[int]:
        return None

    def tell(self, line: str) -> None:
        is_ended_by_status = line.startswith(("drive ", "scramble "))
        self.ask(AskedTurns(self, line, read_accepted) if is_ended_by_status else Asked(self, line, read_accepted))

    def ask(self, pending: Pending[object]) -> None:
        """Takes a command to be written; waits only if much is unsent."""
        if self.is_closed:
            raise ValueError("the network is closed")
        if self.answers.wrong or self.talk.ended:
            self.raise_what_is_wrong()
        # one C call; it draws a second number before it sees that there is no second command
        self.asked.update(zip(self.numbers, (pending,)))
        self.unloaded_bytes += len(pending._event)
        if self.unloaded_bytes > UNSENT:
            # a program that takes no more is read until its text ends
            while (self.talk.has_unsent() or self.talk.is_deaf) and not self.talk.ended:
                self.go_on()
            if self.load():
                self.talk.write()

    def load(self) -> bool:
        """If all bytes are sent, loads the commands not yet under way; returns whether there were any."""
        last, new = self.talk.load, []
        end = last.end
        while pending := self.asked.get(end):
            new.append(pending._ahead + pending._event + b"\n")
            end += STEP
        if not new or self.talk.is_deaf or last.is_unsent():
            return False
        self.unloaded_bytes = 0
        last.later.setdefault(0, Load(b"".join(new), end))
        return True

    def go_on(self) -> None:
        """Reads output that came; if none, writes what the program takes at once; else waits a while."""
        answers, talk = self.answers, self.talk
        part = talk.came.get(answers.parts)
        if part is None:
            if (talk.has_unsent() or self.load()) and talk.write():
                return
            if talk.wait():
                talk.read()
        elif part:
            answers.later.setdefault(0, answers.read_on(part))
            self.let_go()
        else:
            talk.end()

    def let_go(self) -> None:
        """Drops what was read and answered."""
        answers = self.answers
        came = self.talk.came
        came.pop(answers.parts - 1, None)
        if len(came) > MOST_CAME:
            # those that an interrupt has left here
            for number in [number for number in list(came) if number < answers.parts]:
                came.pop(number, None)
        for number in range(self.low, answers.front, STEP):
            self.asked.pop(number, None)
        self.low = answers.front
        if answers.wrong:
            self.talk.kill()

    def exchange(self) -> None:
        """Goes on unless something is wrong."""
        self.raise_what_is_wrong()
        self.go_on()

    def wait(self, pending: Pending[object]) -> None:
        while pending._entry < 0:
            self.exchange()

    def wait_for_all(self) -> None:
        """Waits until every command is answered, or the run has ended."""
        while self.answers.front in self.asked and not self.answers.wrong and not self.talk.ended:
            self.go_on()

    def raise_what_is_wrong(self) -> None:
        wrong = self.answers.wrong or self.talk.ended
        if wrong:
            self.is_told = True
            raise wrong

    def text(self) -> str:
        """The program's output so far, in whole lines."""
        return text_of(self.lines_since(0)[0])

    def close(self) -> None:
        """Ends the run, once all commands are carried out. If the call was cut short, call it again."""
        if isinstance(self.talk.ended, Inherited) or (self.is_closed and self.talk.ended):
            return
        self.is_closed = True
        while (self.talk.has_unsent() or self.load()) and not self.talk.ended:
            self.go_on()
        self.talk.close_input()
        while not self.talk.ended:
            self.go_on()
        is_waited_for = self.answers.front in self.asked
        if (self.talk.ended.status or is_waited_for) and not self.answers.wrong and not self.is_told:
            raise self.talk.ended

    def kill(self) -> None:
        self.is_closed = True
        self.talk.kill()

    def reply(self, pending: Pending[Reply]) -> Reply:
        """The reply to a command. Raises the refusal, `NoReply`, or an error if the text is no reply."""
        if pending._text.startswith(b"refused "):
            raise refusal(self.names, pending._event, pending._text, pending._entry)
        try:
            return pending._reply(self.names)
        except MemoryError:
            raise NoReply(pending._entry) from None
        except (ValueError, LookupError):
            event, text = pending._event.decode(), text_of(pending._text)
            raise Garbled(f"entry {pending._entry} is no reply to {event[:200]!r}: {text[:200]!r}") from None
