"""Judges what the prover prints of a function with a mistake: refused, proved or undecided.

A mistake is refused only if a goal of a clause fails: of an `ensures`, of an invariant, or of a
callee's `requires`. Without the mistake the prover proves this goal by itself. Or the goal has a hand-written
answer, which still fits and fails, and the prover does not prove the goal without the answer either.
"""

from __future__ import annotations

import re
from typing import Collection, Mapping, NamedTuple, Sequence

REFUSED, PROVED, UNDECIDED = "refused", "proved", "undecided"

# What a goal of a clause has in its name.
KINDS = ("returns", "requires", "init", "preserved", "invariant_of")
# Goals that any code has, whatever its contract.
OF_SAFETY = re.compile(r"(overflow|bounds|slice_bounds|offset_bounds|nonzero)_?[a-z]*-|.*-smaller$")
# A goal that no search proved, or at which one broke off: its file, its line and its name.
OPEN = re.compile(
    r"(?m)^note: (?:.* rattle made: )?(\S+?):(\d+):\d+: (?:error: (?=`[^`\n]+`: )|.*?\((?=`[^`\n]+`\)))`([^`\n]+)`"
)
# An error in a proof file, with its further lines: the crate, the folder, the goal if it is in an answer.
WRONG = re.compile(r"(?m)^(\S+)/proofs/(\S+)/\w+\.antt(?::\d+:\d+)?: error: (?:`([^`\n]+)`: )?(.*(?:\n  .*)*)")
# An answer for a goal that is gone.
GONE = "that can be named from here"
# An answer that has another value than its goal, within the same form; and one of another form.
OTHER_VALUE = re.compile(
    r", right after `|computed as far as they go, the two types (?:first )?differ"
    r"|expected type `(\S+) .*(?:,|\n ) but this has type `\1 "
)
OTHER_FORM = re.compile(r"one has `Unit\b")
# An answer that cites a lemma that is not there.
UNKNOWN = re.compile(r"`(\S+)` is not in scope")
# An answer whose tactic finds no proof.
NO_PROOF = re.compile(r"`(?:omega|grind|search|simp|cc)`:? (?!does not read)")
UNREAD = "the borrow checker does not cover"
# What decides the form of a body, and so the names of its goals.
CONTROL = re.compile(r"\b(?:if|else|match|return|while|for|loop|break|continue)\b|\?|=>|&&|\|\|")
# A declaration that no check admits. With one among a function's answers the prover tries each goal. But it
# prints no answers to fill in, which costs a quarter of the whole.
NOT_ADMITTED = "not-admitted"


class Verdict(NamedTuple):
    kind: str
    why: str


class Report(NamedTuple):
    """What the prover prints of a function: its line, its open goals, and the errors of its proof, by goal."""

    line: str
    goals: Sequence[str]
    wrong: Mapping[str, str]


def report_of(text: str, whole: str, file: str, lines: Collection[int]) -> Report:
    """The report on the function with a path, in these lines of a file, from all that the prover prints."""
    line = re.search(rf"(?m)^fn {re.escape(whole)}: (.*)", text)
    told = line[1] if line else ""
    goals = re.findall(r"`([^`]*)`", told.partition("`search` did not prove ")[2].partition(";")[0])
    goals += [it[3] for it in OPEN.finditer(text) if it[1] == file and int(it[2]) in lines]
    crate, _, path = whole.partition("::")
    here = [it for it in WRONG.finditer(text) if it[1] in (".", crate) and it[2] == path.replace("::", "/")]
    # Of several errors in an answer the first counts.
    wrong = {it[3] or "": it[4] for it in reversed(here) if it[3] != NOT_ADMITTED}
    return Report(told, list(dict.fromkeys(goals)), wrong)


def whole_of(goal: str) -> str:
    """The goal of all clauses, for a goal of one of them."""
    return goal.partition("-clause-")[0]


def kind_of(goal: str) -> str:
    """Which of KINDS a goal of a clause is; '' for another goal."""
    return "" if OF_SAFETY.match(goal) else next((it for it in whole_of(goal).split("-") if it in KINDS), "")


def is_alike(goal: str, other: str) -> bool:
    """Whether the goals may be of one clause, at two places of a body."""
    kind, clauses = kind_of(goal), {it.partition("-clause-")[2] for it in (goal, other)}
    return kind == kind_of(other) and (kind != "returns" or "" in clauses or len(clauses) == 1)


def keeps_form(old: str, new: str) -> bool:
    """Whether a text has the branches, loops and exits of another, so that each goal has its counterpart."""
    return CONTROL.findall(old) == CONTROL.findall(new)


def fits(goal: str, wrong: Mapping[str, str]) -> bool:
    """Whether a failed answer fits its goal: a value differs, a tactic finds no proof, or this is so of a lemma
    that was set aside before it."""
    lemma = UNKNOWN.match(wrong[goal])
    if lemma:
        return lemma[1] in wrong and fits(lemma[1], wrong)
    text = wrong[goal]
    return bool(NO_PROOF.match(text) or (OTHER_VALUE.search(text) and not OTHER_FORM.search(text)))


def doubt_of(goal: str, rivals: Collection[str], aside: Mapping[str, str]) -> str:
    """Why an open goal says nothing of the mistake; '' if it shows the mistake. `rivals` are answers that the
    goal may have had under another name."""
    if not kind_of(goal):
        return f"{goal} is a goal of no clause"
    own = [it for it in aside if goal in (it, whole_of(it)) or it == whole_of(goal)]
    if own:
        return next((f"the answer of {it} does not fit: {aside[it]}" for it in own if not fits(it, aside)), "")
    other = next((it for it in rivals if is_alike(goal, it)), "")
    return other and f"{goal} may lack the answer of {other}"


def judged(report: Report, answers: Collection[str], aside: Mapping[str, str], same_form: bool) -> Verdict:
    """The verdict on a mistake. `answers` are the goals with hand-written answers; `aside` are those, and lemmas,
    that were set aside before this check, with their errors in earlier ones."""
    if report.line == "proved":
        return Verdict(PROVED, "is still proved")
    if UNREAD in report.line:
        return Verdict(UNDECIDED, f"is not read: {report.line.partition('; ')[2]}")
    gone = [goal for goal, text in {**aside, **report.wrong}.items() if GONE in text]
    # What the function returns comes first.
    goals = sorted(report.goals, key=lambda it: not it.startswith("returns"))
    doubts = {it: doubt_of(it, gone if same_form else answers, aside) for it in goals}
    if "" in doubts.values():
        return Verdict(REFUSED, f"is refused at {next(it for it in goals if not doubts[it])}")
    errors = (f"the proof of {goal} fails: {text}" for goal, text in report.wrong.items())
    why = [*doubts.values(), *errors, report.line][0].partition("\n")[0]
    return Verdict(UNDECIDED, f"is not judged: {why}")


def without_answers(text: str, names: Collection[str]) -> str:
    """A file of answers without those for some goals, and without some lemmas."""
    drops = re.compile(rf"(?m)^(?:pub )?(?:{'|'.join(map(re.escape, names))}) :")
    return "\n\n".join(it for it in text.split("\n\n") if not drops.search(it))
