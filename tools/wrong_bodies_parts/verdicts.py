"""What a check says of must-fail edits."""
import dataclasses
import re

REFUSED = "refused"
# The goal fails because the stored proof does not fit. The goal may hold.
STORED = "refused by its stored proof"
BAD, UNREAD = "BAD EDIT", "BAD EDIT: it fails, and not for a proof"
LIMIT = f"{BAD}: a search stopped at a limit"
OTHER = f"{BAD}: no goal of its function's contract fails"
LOST_NAME = f"{BAD}: its proof names what the edit took away"
# What goals that fail show. If several goals of an edit fail, the first of these counts.
SHOWS = (REFUSED, STORED, LIMIT, OTHER, LOST_NAME)
HOLDS = "NOT REFUSED: its function's proof holds"
UNKNOWN = "NOT REFUSED: the check does not say whether its function's proof holds"
# An error of a check: the file, and the message, which continues in indented lines.
ERROR = re.compile(r"(?m)^(?:\./)?(\S+?):\d+:\d+: error(.*(?:\n  .*)*)")
# The report of a check on a function: notes on its goals, its name, and its state.
FUNCTION = re.compile(r"(?ms)\A(.*?)^fn (\S+): ([^\n]*)\n?")


@dataclasses.dataclass(frozen=True)
class Failure:
    """A goal that fails: what that shows (one of SHOWS), the line of the check on it, and whether it is false."""

    goal: str
    shows: str
    line: str
    is_false: bool


@dataclasses.dataclass(frozen=True)
class Verdict:
    """What a check says of an edit: the kind, a line, and the goals of its function that fail."""

    kind: str
    line: str
    failures: tuple = ()


def verdict(edit, crate, printed):
    """The verdict on an edit of a crate, from what a check printed."""
    notes, state = reports_on_functions(printed).get(f"{crate.name}::{edit.function}", ("", None))
    errors = ERROR.findall(printed)
    misread = [f"{file}{error}" for file, error in errors if not file.startswith("proofs/") and is_unread(error)]
    if state is None or misread:
        last = printed.strip().rpartition("\n")[2]
        return Verdict(UNREAD, [*misread, *(f"{file}{error}" for file, error in errors), last][0])
    by_answers = answers_failed(edit, crate.folder, errors)
    failures = (*by_answers, *searches_failed(edit, crate.folder, state, notes, printed))
    if failures:
        worst = min(failures, key=lambda it: SHOWS.index(it.shows))
        return Verdict(worst.shows, worst.line, failures)
    # If only a function that it calls has no proof, its own goals are proved.
    holds = re.match("proved$|no proof: (in `.*`, of this cycle of calls: )?it calls `", state)
    return Verdict(HOLDS if holds else UNKNOWN, state)


def answers_failed(edit, folder, errors):
    """The goals of the edit's function whose stored proofs fail, and do not only depend on one that fails."""
    for file, error in errors:
        if edit.is_proof(file, folder) and not re.match(r": \d+ declarations? that depend", error):
            named = re.match(r": `([^`]+)`", error)
            goal = edit.owned(named[1], folder) if named else ""
            if goal is not None:
                shows = shown_by(goal, error, edit.is_alone)
                yield Failure(goal, STORED if shows == REFUSED else shows, f"{file}{error}", is_false(error))


def searches_failed(edit, folder, state, notes, printed):
    """The goals of the edit's function that have no stored proof, and that the prover's search does not prove."""
    unproved = re.search(r"did not prove ((?:`[^`]+`(?:, | and )?)+)", state)
    lines = {name: f"`{name}`: {state}" for name in re.findall(r"`([^`]+)`", unproved[1] if unproved else "")}
    unproved_notes = re.findall(r"(?m)^note: (\S+ it is not proved that .*\(`([^`]+)`\).*)", notes)
    lines |= {name: line for line, name in unproved_notes}
    for name, file, asked in re.findall(r"(?m)^note: `([^`]+)` of (\S+) (must prove: .*)", printed):
        if name in lines and edit.is_proof(file, folder):
            lines[name] += f"; it {asked}"
    for name, line in lines.items():
        goal = edit.owned(name, folder)
        if goal is not None:
            yield Failure(goal, shown_by(goal, line, edit.is_alone), line, is_false(line))


def shown_by(goal, message, is_alone):
    """What the failure of a goal with this message shows: one of SHOWS, except STORED."""
    if is_unread(message):
        return LOST_NAME
    if not is_alone and not is_of_contract(goal):
        return OTHER
    return LIMIT if is_at_limit(message) and not is_false(message) else REFUSED


def is_false(message):
    """Whether a tactic found a counterexample or tried every way, or the goal is `n < n`."""
    decided = "holds, and the goal fails|allow values at which this goal is false|Every way was tried"
    return bool(re.search(rf"{decided}|must prove: (.+) < \1$", " ".join(message.split())))


def is_of_contract(goal):
    """Whether the name of a goal is that of a function's contract, and not of its safety or of the calls in it."""
    kind = re.fullmatch(r"returns(-.*)?|invariant_of(-.*)?|\w+-(init|preserved)(-.*)?", goal)
    return kind is not None and "requires" not in goal.split("-") and not goal.startswith("overflow_")


def is_at_limit(message):
    """Whether a message says that a tactic stopped at a limit, so that its goal may hold."""
    own = "stopped at its own limit|stopped at a bound of its own|gave up at one of its limits"
    return bool(re.search(f"{own}|stopped at the step limit|so the goal may hold", message))


def is_unread(message):
    """Whether an error says that a text cannot be parsed or resolved, as if it names something that an edit removed."""
    unresolved = "is not in scope|has no field|has no `|is no name"
    unparsed = "operand is missing|expected the end|cannot continue"
    return bool(re.search(f"{unresolved}|{unparsed}", " ".join(message.split())))


def reports_on_functions(printed):
    """The functions that a check reports on, each with the notes on its goals and its state."""
    found = {}
    while read := FUNCTION.match(printed):
        found[read[2]], printed = (read[1], read[3]), printed[read.end() :]
    return found


def one_line(message):
    """The beginning of a message, in one line."""
    return " ".join(message.split())[:240]
