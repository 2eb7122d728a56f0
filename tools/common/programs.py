"""Checks of programs: what they print, and how they end."""
import subprocess
import sys

from .results import Results


def shell(command):
    """The words that run a command of a shell. It ends where a part of it fails."""
    return ["bash", "-e", "-o", "pipefail", "-c", command]


class Programs(Results):
    """The results of checks that run programs.

    With `stops`, the tool stops at the first check that fails. `how` goes to each run, as to `subprocess.run`."""

    def __init__(self, stops=False, **how):
        super().__init__()
        self.stops, self.how = stops, how

    def fail(self, why):
        super().fail(why)
        if self.stops:
            sys.exit(1)

    def ran(self, words, status=None, **how):
        """The status, the output and the messages of a command. They are shown if it has to end with another status."""
        done = subprocess.run([str(word) for word in words], capture_output=True, **{**self.how, **how})
        if status not in (None, done.returncode):
            print((done.stdout + done.stderr).decode(errors="replace")[-3000:])
        return done.returncode, done.stdout, done.stderr

    def prints(self, what, words, output=b"", errors=b"", status=0, **how):
        """Checks what a command prints, and its status."""
        self.expect(what, self.ran(words, status, **how), (status, output, errors))

    def printed(self, what, words, status=0, **how):
        """What a command prints, which must end with this status; None if it does not."""
        ended, output, errors = self.ran(words, status, **how)
        self.expect(what, ended, status)
        return (output + errors).decode(errors="replace") if ended == status else None

    def built(self, what, words, **how):
        """Whether a command that builds something ends with status 0."""
        return self.printed(what, words, **how) is not None
