"""What is in the packages: the files of an installation, of the Python package and of the Rust crate."""
import dataclasses
import time

from . import names
from .trees import File, Link, compressed


@dataclasses.dataclass
class Layout:
    """Where an installation has its files, relative to its root."""

    # Before bin, include and share.
    prefix: str
    lib: str
    # Of zsh, relative to share.
    zsh: str
    # Whether manual pages are compressed.
    compresses: bool


IN_TAR = Layout("", "lib", "zsh/site-functions", False)
IN_DEBIAN = Layout("usr/", "usr/lib/x86_64-linux-gnu", "zsh/vendor-completions", True)


def file_of(path, mode=0o644):
    return File(path.read_bytes(), mode)


def proof(version, source):
    """The text that says what was proved, with which toolchain."""
    lines = [f"{names.PROJECT} {version}", f"Commit: {source.commit}"]
    if source.toolchain is None:
        return "\n".join([*lines, "NOT PROVED: these binaries are for a test of the packages.\n"])
    lines.append(f"Toolchain: {source.toolchain}")
    lines.append("At this commit, with this toolchain, the gate (.ci/run) passed: it proved and built the files below.")
    lines.append("In the packages, the programs are stripped, and the archives are joined into one.")
    lines.append("The shared object is linked from this archive.")
    return "\n".join([*lines, *source.sums, ""])


def pkg_config(version, layout):
    """The file for pkg-config. Its paths are relative to the file, so the installation can be moved."""
    depth = "/".join([".."] * (len(layout.lib.removeprefix(layout.prefix).split("/")) + 1))
    return "\n".join([
        f"prefix=${{pcfiledir}}/{depth}",
        f"libdir=${{prefix}}/{layout.lib.removeprefix(layout.prefix)}",
        "includedir=${prefix}/include",
        "",
        f"Name: {names.LIBRARY}",
        f"Description: {names.SUMMARY}",
        f"Version: {version}",
        f"Libs: -L${{libdir}} -l{names.LIBRARY}",
        "Cflags: -I${includedir}",
        "",
    ])


def manual(name, version, source, layout):
    """The end of the name of a program's manual page, and the bytes of the page."""
    date = time.strftime("%Y-%m-%d", time.gmtime(source.time))
    page = (names.PACKAGING / f"{name}.1").read_text(encoding="utf-8")
    data = page.replace("@DATE@", date).replace("@VERSION@", version).encode()
    return ("1.gz", compressed(data)) if layout.compresses else ("1", data)


def programs(version, source, binaries, layout):
    """The programs, with their manual pages and completions."""
    tree, share = {}, f"{layout.prefix}share"
    for name, data in binaries.programs.items():
        tree[f"{layout.prefix}bin/{name}"] = File(data, 0o755)
        end, page = manual(name, version, source, layout)
        tree[f"{share}/man/man1/{name}.{end}"] = File(page)
        tree[f"{share}/bash-completion/completions/{name}"] = file_of(names.PACKAGING / f"{name}.bash")
        tree[f"{share}/{layout.zsh}/_{name}"] = file_of(names.PACKAGING / f"_{name}")
        tree[f"{share}/fish/vendor_completions.d/{name}.fish"] = file_of(names.PACKAGING / f"{name}.fish")
    return tree


def library(version, binaries, layout):
    """The library for C, with its header."""
    file, soname = names.shared_object(version)
    return {
        f"{layout.prefix}include/{names.HEADER.name}": file_of(names.HEADER),
        f"{layout.lib}/lib{names.LIBRARY}.a": File(binaries.archive),
        f"{layout.lib}/{file}": File(binaries.shared),
        f"{layout.lib}/{soname}": Link(file),
        f"{layout.lib}/lib{names.LIBRARY}.so": Link(soname),
        f"{layout.lib}/pkgconfig/{names.LIBRARY}.pc": File(pkg_config(version, layout).encode()),
    }


def documents(version, source, layout):
    """The pages, the examples, and what was proved."""
    folder = f"{layout.prefix}share/doc/{names.DEBIAN}"
    tree = {f"{folder}/PROVED": File(proof(version, source).encode())}
    heads = [names.TOP / f"{name}.md" for name in ("README", "CHANGELOG", "CONTRIBUTING")]
    pages = [*heads, *sorted((names.TOP / "docs").glob("*.md"))]
    examples = [*sorted((names.TOP / "examples/c").glob("*.c")), *sorted((names.TOP / "examples/python").glob("*.py"))]
    for path in [*pages, *examples]:
        tree[f"{folder}/{path.relative_to(names.TOP)}"] = file_of(path)
    return tree


def readme(version):
    """The first file to read in a tar."""
    return File((names.PACKAGING / "README").read_text(encoding="utf-8").replace("@VERSION@", version).encode())


def crate(version, source):
    """The Rust crate without its archive, and without the tests that need the repository."""
    top = names.TOP / "examples/rust"
    files = [top / "Cargo.toml", top / "build.rs", *sorted(top.glob("src/*.rs")), *sorted(top.glob("examples/*.rs"))]
    tree = {str(path.relative_to(top)): file_of(path) for path in files}
    return {**tree, "PROVED": File(proof(version, source).encode())}


def under(folder, tree):
    return {f"{folder}/{path}": it for path, it in tree.items()}


def installed(version, source, binaries, layout):
    """All files of an installation. The Rust crate in it links the archive of the installation."""
    folder = f"share/{names.LIBRARY}/rust"
    lib = layout.lib.removeprefix(layout.prefix)
    archive = Link("/".join([*[".."] * (folder.count("/") + 2), lib, f"lib{names.LIBRARY}.a"]))
    rust = {**crate(version, source), f"native/lib{names.LIBRARY}.a": archive}
    return {
        **programs(version, source, binaries, layout),
        **library(version, binaries, layout),
        **documents(version, source, layout),
        **under(f"{layout.prefix}{folder}", rust),
    }
