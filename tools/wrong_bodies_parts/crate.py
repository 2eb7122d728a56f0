"""A crate with its must-fail edits, the checks that try them, and their results."""
import collections
import dataclasses
import hashlib
import os
import pathlib
import re
import subprocess
import tempfile
import time
from collections.abc import Callable

from common.edits import BadEdit
from common.kit import KIT, PROVES

from . import inputs, store
from .edit import PARTS, Edit, copied
from .verdicts import BAD, HOLDS, LIMIT, REFUSED, STORED, UNKNOWN, UNREAD, Verdict, one_line, verdict

TOP = pathlib.Path.cwd()
FOUND = f"{BAD}: a proof is found without the stored one"


@dataclasses.dataclass(frozen=True)
class How:
    """How edits are tried: with which libraries, whether stored results count, and which edits are controlled."""

    # Whether the libraries are those that `rt ci` left in out/.
    after_ci: bool
    anew: bool
    # From a crate's name and its edits to those of which the functions are checked without an edit.
    controlled: Callable
    # From edits that their stored proofs refuse to those that are searched although it is known what refuses them.
    searched: Callable
    # From a crate's name and an edit to the kind of what refused it at the last whole control, or to None.
    known: Callable


class Crate:
    """A crate with its edits and their results.

    `uses` has for each crate the names of those that it uses. `only` has the names of the edits to try; if it is empty,
    all are tried. `logs` is a folder for what the checks print, or None."""

    def __init__(self, name, uses, only=(), logs=None):
        self.name, self.uses, self.folder, self.logs = name, uses[name], TOP / "crates" / name, logs
        # The crates of the repository. Those of the kit need no proof.
        self.with_below = {name}
        while more := {it for below in self.with_below for it in uses[below] if it in uses} - self.with_below:
            self.with_below |= more
        self.checks, self.seconds, self.seconds_of = 0, 0, collections.Counter()
        # For each edit a line that says the result; and the kind of its verdict, if it was tried.
        self.edits, self.results, self.kinds = [], {}, {}
        for path in sorted(self.folder.rglob("*.edit")):
            if path.parent not in (self.folder / "wrong-bodies", self.folder / "must-fail"):
                self.results[path.stem] = f"{BAD}: it is in none of the folders wrong-bodies/ and must-fail/"
        for path in sorted(self.folder.glob("wrong-bodies/*")):
            if only and path.stem not in only:
                continue
            try:
                edit = Edit.read(path)
                edit.applied({}, self.folder)
                self.edits.append(edit)
            except BadEdit as error:
                self.results[path.stem] = f"{BAD}: {error}"
        unknown = [it for it in only if not (self.folder / f"wrong-bodies/{it}.edit").exists()]
        self.results.update((it, f"{BAD}: there is no such edit") for it in unknown)

    def waits_for_libraries(self, log):
        """Waits until the `rt ci` that writes this log has proved the crates below, or has ended.

        Libraries that `rt check` left in out/ come back when `rt ci` ends, so then it waits for that."""
        was_used = self.is_of_a_check()
        while True:
            said = log.read_text(encoding="utf-8", errors="replace") if log.exists() else ""
            proved = {*re.findall(r"(?m)^rt: (\w+) (?:proved$|is kept: )", said)}
            if has_ended(said) or not was_used and self.with_below - {self.name} <= proved:
                return
            time.sleep(1)

    def is_of_a_check(self):
        """Whether a library in out/ comes from `rt check`, and not from `rt ci`."""
        return any((TOP / f"crates/{it}/out/rlib/stamp").exists() for it in self.with_below)

    def sum_of_inputs(self, sum_of_tool):
        """A checksum of what a check of the crate reads: the kit, the crate and those below; and of this tool."""
        found = hashlib.sha256(f"{sum_of_tool} {self.uses!r}".encode() + (KIT / "KIT-ID").read_bytes())
        for name in sorted(self.with_below):
            folder = TOP / "crates" / name
            parts = [*PARTS, "out/rlib"] if name != self.name else PARTS
            for path in sorted(it for part in parts for it in (folder / part).rglob("*") if it.is_file()):
                found.update(f"{path.relative_to(TOP)} {hashlib.sha256(path.read_bytes()).hexdigest()}\n".encode())
        return found.hexdigest()

    def words(self):
        """The command that checks a copy of the crate in the current folder, with the libraries in out/."""
        root = "src/main.rt" if (self.folder / "src/main.rt").exists() else "src/lib.rt"
        words = [KIT / "bin/rattle", "check", "--crate-name", self.name, root, "--links", f"{self.name}="]
        words += PROVES
        for it in ["std", *self.uses]:
            own = TOP / f"crates/{it}/out/rlib/{it}.rlib"
            words += ["--extern", f"{it}={own if own.exists() else KIT / f'rlibs/{it}.rlib'}"]
        for it in [KIT / "rlibs", *sorted(TOP.glob("crates/*/out/rlib"))]:
            words += ["-L", f"dependency={it}"]
        return words

    def check(self, edits, functions, kept, has_answers=True):
        """What a check of these functions with these edits prints.

        `kept` is the folder in which the prover stores results for the next checks. Without `has_answers` the copy has
        no stored proofs of goals."""
        texts = {}
        for edit in edits:
            texts = edit.applied(texts, self.folder)
        begun = time.time()
        with tempfile.TemporaryDirectory(prefix="wrong-bodies-") as room:
            copied(self.folder, pathlib.Path(room), texts, [it.function for it in self.edits], has_answers)
            only = [word for it in functions for word in ("--only", f"{self.name}::{it}")]
            with open(f"{room}/printed", "w+", encoding="utf-8", errors="replace") as output:
                how = {"stdin": subprocess.DEVNULL, "stdout": output, "stderr": subprocess.STDOUT}
                started = subprocess.Popen([*self.words(), "--incremental", kept, *only], cwd=room, **how)
                used = os.wait4(started.pid, 0)[2]
                output.seek(0)
                printed = output.read()
        seconds = used.ru_utime + used.ru_stime
        self.checks, self.seconds = self.checks + 1, self.seconds + seconds
        if not edits:
            self.count_seconds(kept, begun, seconds)
        if self.logs:
            self.logs.mkdir(parents=True, exist_ok=True)
            text = f"{' '.join(it.name for it in edits)}\n{printed}"
            (self.logs / f"{self.name}-{self.checks}").write_text(text, encoding="utf-8")
        return printed

    def count_seconds(self, kept, begun, seconds):
        """Adds the processor seconds of a check without edits to those of the functions that it proved.

        The prover writes a file to `kept` as it ends with each module of a proof. A module takes the time since the
        file before, as a share of the seconds of the check."""
        files = [(it.stat().st_mtime, it.name) for it in pathlib.Path(kept).rglob("*.oantt")]
        ended = sorted(it for it in files if it[0] >= begun)
        share = seconds / max(ended[-1][0] - begun, 0.001) if ended else 0
        names = {it.function.replace("::", "."): it.function for it in self.edits}
        for (before, _), (at, module) in zip([(begun, ""), *ended], ended):
            found = re.search(r"-proofs\.(.*)\.\w+(?:\.Mir|\.View)?(?:\.decls)?\.oantt$", module)
            if found and found[1] in names:
                self.seconds_of[names[found[1]]] += (at - before) * share

    def rounds(self, edits):
        """The edits in groups, the largest first. One check can try a group."""
        groups = []
        for edit in edits:
            group = next((it for it in groups if self.fits(edit, it)), None)
            if group:
                group.append(edit)
            else:
                groups.append([edit])
        return sorted(groups, key=len, reverse=True)

    def fits(self, edit, group):
        """Whether one check can try the edit with this group."""
        if edit.is_alone or group[0].is_alone or edit.cycle(self.folder) in [it.cycle(self.folder) for it in group]:
            return False
        texts = {}
        try:
            for it in [*group, edit]:
                texts = it.applied(texts, self.folder)
        except BadEdit:
            return False
        return True

    def tried(self, how, sum_of_tool):
        """Tries all edits of the crate, and returns the crate with the results."""
        is_kept = how.after_ci and not self.is_of_a_check()
        memory = store.Memory(self.sum_of_inputs(sum_of_tool) if is_kept and self.edits else "", how.anew)
        with tempfile.TemporaryDirectory(prefix="wrong-bodies-kept-") as kept:
            if self.edits and not is_kept:
                # This builds the libraries below that are not up to date, and checks nothing else.
                subprocess.run(["rt", "check", "--only", ""], cwd=self.folder, stdout=subprocess.DEVNULL, check=True)
            self.control(how.controlled(self.name, self.edits), memory, kept)
            verdicts = self.verdicts([it for it in self.edits if it.name not in self.results], memory, kept)
            stored = [it for it, found in verdicts.items() if found.kind == STORED]
            searched = self.search(stored, verdicts, how, memory, kept)
        for edit, found in verdicts.items():
            self.kinds[edit.name] = found.kind
            self.results[edit.name] = f"{found.kind}: {edit.function}: {one_line(found.line)}"
        self.judge_stored([it for it in stored if self.kinds[it.name] == STORED], searched, memory)
        return self

    def search(self, stored, verdicts, how, memory, kept):
        """Decides what refuses these edits, which their stored proofs refuse: by what is known, or else by a search.

        It changes the verdicts, and returns the edits that were searched."""
        known = {it: how.known(self.name, it) for it in stored}
        drawn = how.searched(stored)
        searched = {it: verdicts[it] for it in stored if it in drawn or not known[it]}
        verdicts |= self.without_stored_proofs(searched, memory, kept)
        for edit in (it for it in stored if known[it] and verdicts[it].kind == STORED):
            verdicts[edit] = dataclasses.replace(verdicts[edit], kind=known[edit])
        self.compare_with_unchanged([it for it in searched if not known[it]], verdicts, memory, kept)
        return searched

    def control(self, controlled, memory, kept):
        """Checks that the proofs of these edits' functions hold without an edit. Other edits are not tried."""
        functions = sorted({it.function for it in controlled})
        if not controlled or memory.found("control", functions):
            return
        failed = [(edit, found) for edit, found in self.outcomes([], controlled, kept) if found.kind != HOLDS]
        for edit, found in failed:
            why = f"its function's proof does not hold without it: {edit.function}: {one_line(found.line)}"
            self.results[edit.name] = f"NOT TRIED: {why}"
        if not failed:
            memory.keep("control", functions, Verdict(REFUSED, " ".join(functions)))

    def verdicts(self, edits, memory, kept):
        """The verdict on each of these edits. A verdict from memory does not say which goals failed."""
        verdicts = {it: found for it in edits if (found := memory.found("edit", it))}
        left = [it for it in edits if it not in verdicts]
        while left:
            left = [it for group in self.rounds(left) for it in self.tries(group, verdicts, kept)]
        for edit, found in verdicts.items():
            if found.kind in (REFUSED, STORED):
                memory.keep("edit", edit, found)
        return {it: found for it, found in verdicts.items() if it.name not in self.results}

    def tries(self, group, verdicts, kept):
        """Tries a group of edits in one check, and returns those that must be tried again.

        If the check decides none of them, each is tried by itself, which always has a result."""
        left = []
        for edit, found in self.outcomes(group, group, kept):
            # A check with many open goals does not say what each must prove.
            if len(group) > 1 and found.kind in (UNREAD, UNKNOWN, LIMIT):
                left.append(edit)
            else:
                verdicts[edit] = found
        return left if len(left) < len(group) else [it for edit in left for it in self.tries([edit], verdicts, kept)]

    def outcomes(self, applied, edits, kept, has_answers=True):
        """Each of the edits with its verdict, by a check of a copy with the edits `applied`.

        If the crate has no such function, the edit is bad and left out, and the check is made again."""
        printed = self.check(applied, sorted({it.function for it in edits}), kept, has_answers)
        lost = [it for it in edits if f"has no function `{self.name}::{it.function}`" in printed]
        if not lost:
            return [(edit, verdict(edit, self, printed)) for edit in edits]
        self.results.update((it.name, f"{BAD}: there is no function {it.function}") for it in lost)
        left = [it for it in edits if it not in lost]
        return self.outcomes([it for it in applied if it not in lost], left, kept, has_answers) if left else []

    def without_stored_proofs(self, verdicts, memory, kept):
        """Verdicts on edits that their stored proofs refuse, by checks in which the prover searches for these proofs.

        An edit is REFUSED if a goal is false.
        It is FOUND if the search proves the goals whose stored proofs failed, and else still STORED."""
        new = {it: found for it in verdicts if (found := memory.found("search", it))}
        left = {it: found for it, found in verdicts.items() if it not in new and not it.is_alone}
        left |= self.verdicts([it for it, found in left.items() if not found.failures], store.Memory("", True), kept)
        for group in self.rounds(left):
            for edit, found in self.outcomes(group, group, kept, has_answers=False):
                new[edit] = after_search(left[edit], found)
                if new[edit].kind in (REFUSED, STORED):
                    memory.keep("search", edit, new[edit])
        return new

    def compare_with_unchanged(self, edits, verdicts, memory, kept):
        """Makes an edit REFUSED that is STORED, if the search proves one of its goals for the unchanged body."""
        left = [it for it in edits if verdicts[it].failures and verdicts[it].kind == STORED]
        for edit, found in self.outcomes([], left, kept, has_answers=False) if left else []:
            unproved = {it.goal for it in found.failures}
            goals = [it for it in verdicts[edit].failures if it.goal not in unproved and it.shows == REFUSED]
            if found.kind != UNREAD and goals:
                verdicts[edit] = Verdict(REFUSED, goals[0].line)
                memory.keep("search", edit, verdicts[edit])

    def judge_stored(self, edits, searched, memory):
        """Makes edits bad that only their stored proofs refuse, and that name no input which shows the mistake."""
        for edit in edits:
            if not edit.input:
                self.results[edit.name] = f"{BAD}: only its stored proof refuses it, and it names no input"
        run = [it for it in edits if it.input and it in searched and not memory.found("input", it)]
        for edit, fault in inputs.faults(self, run).items():
            if fault:
                self.results[edit.name] = f"{BAD}: {fault}"
            else:
                memory.keep("input", edit, Verdict(REFUSED, edit.input))


def after_search(before, found):
    """The verdict on an edit that its stored proofs refuse, after a check in which the prover searches for them."""
    if found.kind == UNREAD:
        return found
    unproved = {it.goal: it for it in found.failures}
    failures = tuple(unproved[it.goal] for it in before.failures if it.goal in unproved)
    if not failures:
        return Verdict(FOUND, found.line)
    false = [it for it in failures if it.is_false] or [
        it for it in before.failures if it.is_false and it.goal in unproved]
    return Verdict(REFUSED if false else STORED, (false or failures)[0].line, failures)


def has_ended(said):
    """Whether `rt ci`, which printed this, has ended."""
    return re.search(r"(?m)^\d+ passed, \d+ failed", said) is not None
