"""What pip calls to install the package from this folder (PEP 517): a wheel of the package, the shared library in it. The standard library is enough."""
import base64
import hashlib
import io
import re
import tarfile
import zipfile
from pathlib import Path

HERE = Path(__file__).resolve().parent
LIBRARY = "topazfern/libtopazfern.so"
PROJECT = (HERE / "pyproject.toml").read_text(encoding="utf-8")


def field(name):
    return re.search(rf'^{name} = "(.*)"$', PROJECT, re.M).group(1)


NAME, VERSION = field("name"), field("version")


def metadata():
    """What pip has to know of the package, as pyproject.toml says it."""
    lines = ["Metadata-Version: 2.1", f"Name: {NAME}", f"Version: {VERSION}", f"Summary: {field('description')}", f"Requires-Python: {field('requires-python')}",
             "Provides-Extra: plot", 'Requires-Dist: matplotlib; extra == "plot"']
    return "\n".join(lines) + "\n"


def files():
    """The files of the package by their place in it; the library where python/make-library has made it."""
    found = {f"topazfern/{path.name}": path.read_bytes() for path in sorted((HERE / "topazfern").glob("*.py"))}
    found["topazfern/py.typed"] = b""
    if (HERE / LIBRARY).is_file():
        found[LIBRARY] = (HERE / LIBRARY).read_bytes()
    else:
        print("there is no libtopazfern.so yet: run python/make-library before pip, or let TOPAZFERN_LIBRARY name one")
    return found


def build_wheel(wheel_directory, config_settings=None, metadata_directory=None):
    found = files()
    tag = "py3-none-linux_x86_64" if LIBRARY in found else "py3-none-any"
    about = f"{NAME}-{VERSION}.dist-info"
    script = re.search(r'^topaz = "(.*)"$', PROJECT, re.M).group(1)
    pure = str(LIBRARY not in found).lower()
    found[f"{about}/METADATA"] = metadata().encode()
    found[f"{about}/WHEEL"] = f"Wheel-Version: 1.0\nGenerator: {NAME}\nRoot-Is-Purelib: {pure}\nTag: {tag}\n".encode()
    found[f"{about}/entry_points.txt"] = f"[console_scripts]\ntopaz = {script}\n".encode()
    record = [f"{name},sha256={base64.urlsafe_b64encode(hashlib.sha256(data).digest()).rstrip(b'=').decode()},{len(data)}" for name, data in found.items()]
    found[f"{about}/RECORD"] = "\n".join([*record, f"{about}/RECORD,,", ""]).encode()
    wheel = f"{NAME}-{VERSION}-{tag}.whl"
    with zipfile.ZipFile(Path(wheel_directory) / wheel, "w", zipfile.ZIP_DEFLATED) as archive:
        for name, data in found.items():
            archive.writestr(name, data)
    return wheel


def build_sdist(sdist_directory, config_settings=None):
    base = f"{NAME}-{VERSION}"
    found = {**files(), "pyproject.toml": PROJECT.encode(), "backend.py": Path(__file__).read_bytes(), "PKG-INFO": metadata().encode()}
    with tarfile.open(Path(sdist_directory) / f"{base}.tar.gz", "w:gz") as archive:
        for name, data in found.items():
            entry = tarfile.TarInfo(f"{base}/{name}")
            entry.size = len(data)
            archive.addfile(entry, io.BytesIO(data))
    return f"{base}.tar.gz"
