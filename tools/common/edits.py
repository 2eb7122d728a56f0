"""Edits of files, as the must-fail edits and the mutations are.

An edit is a file of lines `WORD: VALUE`. Some words are those of its kind. The others are

    file: PATH     a file
    old: TEXT      a text of one line, which occurs once in the file
    new: TEXT      the text that replaces it

There can be several pairs of `old:` and `new:`, and several files.
"""


class BadEdit(Exception):
    """An edit that cannot be read or applied."""


def read(path, words):
    """The values of the words of an edit, and its changes: triples of a file, an old text and a new text.

    Each of the words can occur once."""
    values, changes, file, old = {}, [], None, None
    for line in filter(str.strip, path.read_text(encoding="utf-8").splitlines()):
        word, _, value = line.partition(":")
        value = value.removeprefix(" ")
        if word == "new" and old is not None:
            changes.append((file, old, value))
            old = None
        elif word == "old" and file and old is None and value:
            old = value
        elif word == "file" and old is None:
            file = value.strip()
        elif word in words and word not in values and old is None:
            values[word] = value.strip()
        else:
            raise BadEdit(f"a line that is not read: {line[:60]}")
    if not changes or old is not None:
        raise BadEdit("it has no whole pair of 'old:' and 'new:' below a 'file:'")
    return values, tuple(changes)


def text_with(change, folder, texts):
    """The text of the file of a change before it, and the offset of the old text in it.

    `texts` has the texts of files that other changes changed. Other files are read from this folder."""
    file, old, _ = change
    if file not in texts and not (folder / file).is_file():
        raise BadEdit(f"there is no file {file}")
    text = texts[file] if file in texts else (folder / file).read_text(encoding="utf-8")
    if text.count(old) != 1:
        raise BadEdit(f"an old text occurs in {file} {text.count(old)} times, and not once")
    return text, text.index(old)


def applied(changes, folder, texts=()):
    """The texts of the files that these changes change, as a dictionary, added to those of other changes."""
    texts = dict(texts)
    for change in changes:
        text, at = text_with(change, folder, texts)
        file, old, new = change
        texts[file] = text[:at] + new + text[at + len(old) :]
    return texts
