"""A package for Debian, which dpkg-deb makes of an installation."""
import email.utils
import hashlib
import os
import pathlib
import tempfile

from . import binaries as tools
from . import names, trees
from .trees import File, Link, compressed

NEEDS = ("dpkg-deb",)


def control(version, source, glibc, size):
    return "\n".join([
        f"Package: {names.DEBIAN}",
        f"Version: {version}",
        "Architecture: amd64",
        f"Maintainer: {source.author}",
        f"Installed-Size: {size}",
        f"Depends: libc6 (>= {glibc[0]}.{glibc[1]})",
        "Section: utils",
        "Priority: optional",
        "Description: parser, formatter and minifier of GraphQL that is proved correct",
        f" {' and '.join(names.PROGRAMS)} for the command line, a library for C with its header,",
        " and a crate for Rust that links the library.",
        "",
    ])


def changelog(version, source):
    time = email.utils.formatdate(source.time)
    head = f"{names.DEBIAN} ({version}) unstable; urgency=medium\n\n  * The changes are in CHANGELOG.md.\n\n"
    return f"{head} -- {source.author}  {time.replace('-0000', '+0000')}\n"


def with_papers(tree, version, source):
    """An installation with what Debian asks of each package."""
    folder = f"usr/share/doc/{names.DEBIAN}"
    return {
        **tree,
        f"{folder}/copyright": File((names.PACKAGING / "copyright").read_bytes()),
        f"{folder}/changelog.gz": File(compressed(changelog(version, source).encode())),
    }


def controls(tree, version, source, glibc):
    """The files by which the package is described and installed."""
    first, second = names.shared_object(version)[1].split(".so.")
    files = {path: it for path, it in sorted(tree.items()) if not isinstance(it, Link)}
    size = sum(-(-len(it.data) // 1024) for it in files.values()) + len(tree) + len(trees.folders_of(tree))
    sums = "".join(f"{hashlib.md5(it.data).hexdigest()}  {path}\n" for path, it in files.items())
    return {
        "DEBIAN/control": File(control(version, source, glibc, size).encode()),
        "DEBIAN/md5sums": File(sums.encode()),
        "DEBIAN/shlibs": File(f"{first} {second} {names.DEBIAN} (>= {version})\n".encode()),
        "DEBIAN/triggers": File(b"activate-noawait ldconfig\n"),
    }


def made(tree, version, source, glibc):
    """The name of the package, and its bytes."""
    name = f"{names.DEBIAN}_{version}_amd64.deb"
    whole = with_papers(tree, version, source)
    whole.update(controls(whole, version, source, glibc))
    with tempfile.TemporaryDirectory(prefix="package-") as room:
        folder, file = pathlib.Path(room) / "root", pathlib.Path(room) / name
        folder.mkdir()
        trees.write(whole, folder, source.time)
        trees.settle(folder, source.time)
        # dpkg-deb takes the time of the whole from there.
        os.environ["SOURCE_DATE_EPOCH"] = str(source.time)
        tools.run("dpkg-deb", "--root-owner-group", "--uniform-compression", "-Zxz", "--build", folder, file)
        return name, file.read_bytes()
