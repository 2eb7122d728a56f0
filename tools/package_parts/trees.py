"""Trees of files in memory: dictionaries from paths to files and links. Equal trees give equal archives."""
import dataclasses
import gzip
import io
import os
import pathlib
import tarfile


@dataclasses.dataclass
class File:
    data: bytes
    mode: int = 0o644


@dataclasses.dataclass
class Link:
    """A symbolic link, relative to its folder."""

    target: str


def compressed(data):
    """By gzip, without a name or a time."""
    out = io.BytesIO()
    with gzip.GzipFile(filename="", fileobj=out, mode="wb", compresslevel=9, mtime=0) as stream:
        stream.write(data)
    return out.getvalue()


def folders_of(tree):
    """Each folder above a file of the tree."""
    return sorted({str(above) for path in tree for above in pathlib.PurePosixPath(path).parents} - {"."})


def entry(path, kind, mode, time):
    """What a tar says of a file, a link or a folder, which root owns."""
    found = tarfile.TarInfo(path)
    found.type, found.mode, found.mtime = kind, mode, time
    found.uname = found.gname = "root"
    return found


def tar_gz(tree, time):
    """A compressed tar of a tree, in the order of the paths."""
    out = io.BytesIO()
    with tarfile.open(fileobj=out, mode="w", format=tarfile.USTAR_FORMAT) as tar:
        for folder in folders_of(tree):
            tar.addfile(entry(folder, tarfile.DIRTYPE, 0o755, time))
        for path, it in sorted(tree.items()):
            if isinstance(it, Link):
                link = entry(path, tarfile.SYMTYPE, 0o777, time)
                link.linkname = it.target
                tar.addfile(link)
            else:
                file = entry(path, tarfile.REGTYPE, it.mode, time)
                file.size = len(it.data)
                tar.addfile(file, io.BytesIO(it.data))
    return compressed(out.getvalue())


def write(tree, folder, time):
    """Writes a tree into a folder, with the time on each of its files and folders."""
    for path, it in tree.items():
        file = folder / path
        file.parent.mkdir(parents=True, exist_ok=True)
        if isinstance(it, Link):
            file.symlink_to(it.target)
        else:
            file.write_bytes(it.data)
            file.chmod(it.mode)
        os.utime(file, (time, time), follow_symlinks=False)
    for path in reversed(folders_of(tree)):
        settle(folder / path, time)


def settle(folder, time):
    """Gives a folder its mode, and its time once nothing is added to it any more."""
    folder.chmod(0o755)
    os.utime(folder, (time, time))
