"""Results that are stored in the user's cache folder, where later runs find them."""
import contextlib
import hashlib
import os
import pathlib
import tempfile

from .verdicts import REFUSED, STORED, Verdict

STORE = pathlib.Path(os.environ.get("XDG_CACHE_HOME") or pathlib.Path.home() / ".cache", "wrong-bodies")


class Memory:
    """The refusals of one crate that are stored. `inputs` is a checksum of all that its checks read; if it is empty,
    nothing is stored. With `is_anew` stored refusals do not count."""

    def __init__(self, inputs, is_anew):
        self.inputs, self.is_anew = inputs, is_anew

    def place(self, step, what):
        """The file that stores what this step found of an edit, or of functions."""
        return STORE / hashlib.sha256(f"{self.inputs} {step} {what}".encode()).hexdigest()

    def found(self, step, what):
        """The verdict that an earlier run stored, if only this user can write to the folder; or None."""
        if not self.inputs or self.is_anew:
            return None
        with contextlib.suppress(OSError):
            folder, text = STORE.stat(), self.place(step, what).read_text(encoding="utf-8")
            kind, _, line = text.partition(": ")
            if folder.st_uid == os.geteuid() and not folder.st_mode & 0o022 and kind in (REFUSED, STORED):
                return Verdict(kind, line)
        return None

    def keep(self, step, what, verdict):
        """Stores a verdict. If that fails, a later run only tries the edit again."""
        if not self.inputs:
            return
        with contextlib.suppress(OSError):
            STORE.mkdir(mode=0o700, parents=True, exist_ok=True)
            with tempfile.NamedTemporaryFile("w", dir=STORE, delete=False, encoding="utf-8") as file:
                file.write(f"{verdict.kind}: {verdict.line}")
            os.replace(file.name, self.place(step, what))
