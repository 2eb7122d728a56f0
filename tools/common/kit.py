"""The kit that is installed, and kits of links to it in which some programs are replaced."""
import pathlib
import shutil

KIT = pathlib.Path(shutil.which("rt") or "rt").resolve().parent.parent
# What `rattle` needs for a proof: its number of jobs, and the logic.
PROVES = ["--jobs", "1", "--antt-project", KIT / "rattle/logic/antt-project.json", "--logic-built", KIT / "logic_built"]
# `rt try` also starts the prover, only to look for names that a check refuses. That takes as long as a build.
NO_PROVER = {"bin/rattle": "#!/bin/sh\n"}


def linked(kit, scripts):
    """Makes a kit in this folder, and returns its `rt`. The scripts are texts for sh, by their paths in the kit.

    `rt` uses the kit in whose folder its own file is. So that file is copied, and the others are links."""
    (kit / "toolchain/bin").mkdir(parents=True)
    (kit / "bin").mkdir()
    for real in [*KIT.glob("*"), *KIT.glob("bin/*"), *KIT.glob("toolchain/*"), *KIT.glob("toolchain/bin/*")]:
        path = real.relative_to(KIT)
        if str(path) in scripts:
            (kit / path).write_text(scripts[str(path)], encoding="utf-8")
            (kit / path).chmod(0o755)
        elif real.name in ("rt", "rtlib.py"):
            shutil.copy(real, kit / path)
        elif not (kit / path).exists():
            (kit / path).symlink_to(real)
    return kit / "bin/rt"
