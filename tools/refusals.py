"""Reads what `rt check --only FUNCTION` said of an edit: refused by which goal, for a name alone, or not at all.

A goal of the function refuses an edit where search leaves it open ("`search` did not prove ..", "it is not proved that .."),
or where its answer in the function's Answers.antt is refused, for more than a name that the edit took away. Where an
answer or an invariant of the function names what is gone, a goal that is left open counts only if no answer of its
kind is lost: else it may be one whose answer now has another name. An answer that is refused shows that it proves no
longer what it proved; that no other answer would, a reader has to see. A goal's name says where it comes from:
    returns..         what the function ensures; returns-..-clause-step is its clause step
    invariant_of-..   the invariant of a type, which what the function leaves has to meet
    put-requires..    what put requires, where the function calls it; index-requires is an index within its list,
                      unreachable-requires that a place is never reached
    loop-.., ..-init  the invariant of a loop, which is in the function's Invariants.antt; decreases-.. that it ends
    overflow_..       arithmetic that fits its type
Which of several calls of one callee a goal is about can't be told from the name. A wrong body that breaks what a callee
requires or the invariant of its own loop, and no more, is refused by that: what the function ensures then rests on it.
"""
import os
import re
from typing import NamedTuple

ERROR = re.compile(r"(?:\./)?(\S+?):\d+:\d+: error: (?:`([^`]+)`: )?(.*)")
NAME_IS_GONE = re.compile(r"is not in scope|has no field|has no `|was not admitted")
NAME = re.compile(r"`([^`]+)`")
UNPROVED = "`search` did not prove "
OPEN = re.compile(r"^note: src/\S+: it is not proved that .*? \(`([^`]+)`\)", re.MULTILINE)
# What a check says of a proved function goes on where it may wait or abort, or where its callers have to give something.
PROVED = r"proved(?:$|, | where )"
REFUSED_FUNCTION = re.compile(rf"^fn (\S+): (?!{PROVED})", re.MULTILINE)
LAST_LINE = re.compile(r"^only=\d+ proved=\d+$", re.MULTILINE)
LINE_LENGTH = 240

REFUSED, NAME_ALONE, NOT_REFUSED, BAD = "refused by", "refused for a name alone, which shows nothing:", "NOT REFUSED", "BAD EDIT:"


class Verdict(NamedTuple):
    kind: str
    words: str = ""

    @property
    def is_refused(self):
        return self.kind == REFUSED

    def __str__(self):
        return f"{self.kind} {self.words}".strip()


def answers_of(function):
    """The file of a function's answers, from the folder of its crate."""
    return os.path.join("proofs", *function.split("::")[1:], "Answers.antt")


def is_goal(name, answers):
    """Whether a declaration of a file of answers answers a goal, and is no lemma beside them."""
    return bool(re.search(rf"^(?:pub )?{re.escape(name)} : goal\.{re.escape(name)}\s*$", answers, re.MULTILINE))


def refused_answers(said, function, answers):
    """The goals of a function whose answers a check refused, for more than a name."""
    errors = [error for error in map(ERROR.match, said.split("\n")) if error and error[1] == answers_of(function)]
    return [error[2] for error in errors if error[2] and not NAME_IS_GONE.search(error[3]) and is_goal(error[2], answers)]


def goals_without_answer(said, function):
    """The goals of a function that have no answer, and that a check left open."""
    goals = [goal for line in said.split("\n") if line.startswith(f"fn {function}: ") and UNPROVED in line for goal in NAME.findall(line.split(UNPROVED, 1)[1])]
    if is_alone(said, function):
        goals += OPEN.findall(said)
    return goals


def is_alone(said, function):
    """Whether no other function was refused, so that each note is on this one."""
    return not [name for name in REFUSED_FUNCTION.findall(said) if name != function]


def lost_names(said, function):
    """The complaints that a proof of the function names what isn't there, each with the kind of the goal that it answers."""
    folder = os.path.dirname(answers_of(function)) + os.sep
    found = [(ERROR.match(line), line[:LINE_LENGTH]) for line in said.split("\n")]
    return [(kind_of(error[2] or ""), line) for error, line in found if error and error[1].startswith(folder) and NAME_IS_GONE.search(error[3])]


def kind_of(goal):
    """The kind of a goal: what the function ensures, an invariant, what calls require; of others nothing is told apart."""
    if "-requires" in goal:
        return "requires"
    return next((kind for kind in ("returns", "invariant_of") if goal.startswith(kind)), "")


def is_answered_nowhere(goal, lost):
    """Whether the answer of an open goal can't be among those that are lost."""
    kinds = {kind for kind, _ in lost}
    return "" not in kinds and kind_of(goal) not in kinds | {""}


def from_where(goals, function):
    """The goals in the words of a reader: first those of the function's own contract."""
    calls = [goal for goal in goals if "-requires" in goal]
    loops = [goal for goal in goals if re.search(r"^loop-|-init$|-preserved|^decreases", goal) and goal not in calls]
    sums = [goal for goal in goals if goal.startswith("overflow_")]
    own = [goal for goal in goals if goal not in calls + loops + sums]
    kinds = [
        (own, f"{', '.join(own)} of {function.split('::')[-1]}"),
        (calls, f"what a call requires: {', '.join(calls)}"),
        (loops, f"the invariant of its loop: {', '.join(loops)}"),
        (sums, f"arithmetic within its type: {', '.join(sums)}"),
    ]
    said = [text for found, text in kinds if found]
    return "; ".join(said)


def verdict_of(said, status, function, answers):
    """What a check with this output and status says of an edit; answers is the text of the function's Answers.antt."""
    errors = [line for line in said.split("\n") if ERROR.match(line) or line.startswith("error")]
    if not LAST_LINE.search(said) or status == 2:
        why = errors or [line for line in said.split("\n") if line.strip()] or ["the check said nothing"]
        return Verdict(BAD, why[0][:LINE_LENGTH])
    unread = [line for line in errors if not ERROR.match(line) or ERROR.match(line)[1].startswith("src/")]
    if unread:
        return Verdict(BAD, unread[0][:LINE_LENGTH])
    lost = lost_names(said, function)
    unanswered = goals_without_answer(said, function)
    goals = refused_answers(said, function, answers) + [goal for goal in unanswered if not lost or is_answered_nowhere(goal, lost)]
    if goals:
        return Verdict(REFUSED, from_where(list(dict.fromkeys(goals)), function))
    if lost:
        return Verdict(NAME_ALONE, f"{lost[0][1]}{'; open, but maybe for want of an answer: ' if unanswered else ''}{', '.join(dict.fromkeys(unanswered))}")
    line = re.search(rf"^fn {re.escape(function)}: (.*)$", said, re.MULTILINE)
    if status == 3:
        return Verdict(NOT_REFUSED, "by a goal, since the check could not tell")
    if status == 0 or line and re.match(PROVED, line[1]):
        others = REFUSED_FUNCTION.findall(said)
        return Verdict(NOT_REFUSED, f"by its function; refused by {', '.join(others)}" if others else "")
    if errors:
        return Verdict(NAME_ALONE, errors[0][:LINE_LENGTH])
    return Verdict(BAD, (line[0] if line else "the check has no line on the function")[:LINE_LENGTH])
