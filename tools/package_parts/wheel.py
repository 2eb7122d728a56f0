"""A wheel for Python, made without a build tool: an archive of the package, its library, the programs, and metadata.

An installation puts the programs on the path, as the console commands of the package."""
import base64
import hashlib
import io
import time as clock
import zipfile

from . import contents, names
from .trees import File

PYTHON = ">=3.8"


def tag(binaries):
    """The platform tag, by the glibc that all files need. 2.5 is the earliest glibc that has a tag of this form."""
    major, minor = max((2, 5), binaries.glibc)
    return f"manylinux_{major}_{minor}_x86_64"


def package():
    """The files of the package, without its library."""
    top = names.TOP / "examples/python"
    files = [*sorted((top / names.LIBRARY).glob("*.py")), top / names.LIBRARY / "py.typed"]
    return {str(path.relative_to(top)): contents.file_of(path) for path in files}


def metadata(version, source):
    return "\n".join([
        "Metadata-Version: 2.1",
        f"Name: {names.LIBRARY}",
        f"Version: {version}",
        f"Summary: {names.SUMMARY}",
        "Platform: Linux x86-64",
        "Classifier: Operating System :: POSIX :: Linux",
        "Classifier: Programming Language :: Python :: 3",
        "Classifier: Typing :: Typed",
        f"Requires-Python: {PYTHON}",
        "Description-Content-Type: text/plain",
        "",
        contents.proof(version, source),
    ])


def described(platform):
    lines = ["Wheel-Version: 1.0", f"Generator: {names.PROJECT}", "Root-Is-Purelib: false"]
    return "".join(f"{line}\n" for line in [*lines, f"Tag: py3-none-{platform}"])


def recorded(tree, path):
    """The file RECORD: all files with their sums, and RECORD itself without one."""
    rows = []
    for name, it in sorted(tree.items()):
        digest = base64.urlsafe_b64encode(hashlib.sha256(it.data).digest()).rstrip(b"=").decode()
        rows.append(f"{name},sha256={digest},{len(it.data)}\n")
    return "".join([*rows, f"{path},,\n"])


def zipped(tree, time):
    """A zip of a tree, in the order of the paths. The metadata comes last, as the format recommends."""
    out = io.BytesIO()
    with zipfile.ZipFile(out, "w", zipfile.ZIP_DEFLATED, compresslevel=9) as archive:
        for path, it in sorted(tree.items(), key=lambda pair: (".dist-info/" in pair[0], pair[0])):
            info = zipfile.ZipInfo(path, clock.gmtime(time)[:6])
            info.compress_type, info.create_system = zipfile.ZIP_DEFLATED, 3
            info.external_attr = (0o100000 | it.mode) << 16
            archive.writestr(info, it.data)
    return out.getvalue()


def made(version, source, binaries):
    """The name of the wheel, and its bytes."""
    platform, name = tag(binaries), f"{names.LIBRARY}-{version}"
    tree = {**package(), f"{names.LIBRARY}/lib{names.LIBRARY}.so": File(binaries.shared, 0o755)}
    for program, data in binaries.programs.items():
        tree[f"{name}.data/scripts/{program}"] = File(data, 0o755)
    tree[f"{name}.dist-info/METADATA"] = File(metadata(version, source).encode())
    tree[f"{name}.dist-info/WHEEL"] = File(described(platform).encode())
    record = f"{name}.dist-info/RECORD"
    tree[record] = File(recorded(tree, record).encode())
    return f"{name}-py3-none-{platform}.whl", zipped(tree, source.time)
