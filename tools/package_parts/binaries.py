"""Programs and libraries: stripped, joined and linked."""
import dataclasses
import pathlib
import re
import subprocess
import tempfile

from . import built, names

# The programs that this needs.
NEEDS = ("ar", "cc", "ld", "objcopy", "readelf", "strip")


@dataclasses.dataclass
class Binaries:
    """The contents of the files that are made here."""

    programs: dict[str, bytes]
    archive: bytes
    shared: bytes
    # The earliest version of glibc that all of them work with, as two numbers.
    glibc: tuple[int, int]


def run(*words):
    done = subprocess.run([str(word) for word in words], stdout=subprocess.PIPE, stderr=subprocess.STDOUT, text=True)
    if done.returncode:
        built.stop(f"status {done.returncode} of {' '.join(map(str, words))}\n{done.stdout}")
    return done.stdout


def glibc_of(file):
    """The version of glibc that a file needs: the latest of those that its symbols name."""
    found = re.findall(r"@GLIBC_(\d+)\.(\d+)", run("readelf", "-W", "--dyn-syms", file))
    return max(((int(first), int(second)) for first, second in found), default=(2, 2))


def make_archive(room):
    """One archive of one object, which exports the functions of the header and nothing else."""
    joined, archive = room / f"{names.LIBRARY}.o", room / f"lib{names.LIBRARY}.a"
    run("ld", "-r", "-o", joined, "--whole-archive", *built.ARCHIVES)
    run("objcopy", *[f"--keep-global-symbol={name}" for name in names.functions(names.HEADER)], joined)
    run("strip", "--strip-unneeded", joined)
    run("ar", "rcsD", archive, joined)
    return archive


def make_shared(room, archive, version):
    """The shared object of the archive."""
    file, soname = names.shared_object(version)
    flags = [f"-Wl,-soname,{soname}", "-Wl,-z,relro,-z,now", "-Wl,--no-undefined", "-Wl,--build-id=sha1"]
    run("cc", "-shared", "-o", room / file, *flags, "-Wl,--whole-archive", archive, "-Wl,--no-whole-archive")
    run("strip", "--strip-unneeded", room / file)
    return room / file


def made(version):
    """All binaries."""
    with tempfile.TemporaryDirectory(prefix="package-") as folder:
        room = pathlib.Path(folder)
        archive = make_archive(room)
        shared = make_shared(room, archive, version)
        programs = {}
        for name in names.PROGRAMS:
            run("strip", "-o", room / name, built.program(name))
            programs[name] = room / name
        glibc = max(map(glibc_of, [shared, *programs.values()]))
        contents = {name: file.read_bytes() for name, file in programs.items()}
        return Binaries(contents, archive.read_bytes(), shared.read_bytes(), glibc)
