"""Builds a library for `LD_PRELOAD`, whose functions a program calls in place of those of the C library."""
import pathlib
import shutil
import subprocess

from .kit import KIT


def compiler_and_linker():
    """The commands that compile and link: the kit's, or else `cc` for both. `None` if there is neither."""
    kit = KIT / "toolchain/bin"
    if (kit / "clang").exists():
        return kit / "clang", kit / "ld.lld"
    return (shutil.which("cc"),) * 2 if shutil.which("cc") else None


def built(source, folder):
    """The library of this source text in C, in this folder. `None` without a compiler."""
    commands = compiler_and_linker()
    if commands is None:
        return None
    folder = pathlib.Path(folder)
    (folder / "before.c").write_text(source, encoding="utf-8")
    compiler, linker = commands
    compiled = [compiler, "-O2", "-fPIC", "-fno-builtin", "-w", "-c", "-o", "before.o", "before.c"]
    subprocess.run(compiled, cwd=folder, check=True)
    subprocess.run([linker, "-shared", "-o", "before.so", "before.o"], cwd=folder, check=True)
    return folder / "before.so"
