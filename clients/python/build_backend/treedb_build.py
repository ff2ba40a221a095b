"""Builds the package's wheel by Python's standard library alone, so that `pip install` needs no index.

It is the build backend of `pyproject.toml`, as PEP 517 has it. A wheel is a zip of the package and of a folder with its metadata.
"""

import base64
import hashlib
import io
import pathlib
import re
import tarfile
import zipfile

try:
    import tomllib
except ImportError:  # Before Python 3.11.
    import tomli as tomllib

HERE = pathlib.Path(__file__).resolve().parent.parent
PACKAGE = "treedb"
# Files of a wheel have one time, so that the same sources give the same bytes.
TIME = (2026, 1, 1, 0, 0, 0)
WHEEL = "Wheel-Version: 1.0\nGenerator: treedb_build\nRoot-Is-Purelib: true\nTag: py3-none-any\n"
# What a source archive has.
SOURCES = ["README.md", "pyproject.toml", "LICENSE-APACHE", "LICENSE-MIT", "build_backend", PACKAGE, "tests"]


def build_wheel(wheel_directory, config_settings=None, metadata_directory=None):
    """Writes the wheel into that folder, and returns its name."""
    files = {f"{PACKAGE}/{path.name}": path.read_bytes() for path in sorted((HERE / PACKAGE).iterdir()) if path.is_file()}
    return _write_wheel(wheel_directory, files)


def build_editable(wheel_directory, config_settings=None, metadata_directory=None):
    """The same with a reference to this folder in the place of the package."""
    return _write_wheel(wheel_directory, {f"{PACKAGE}.pth": f"{HERE}\n".encode()})


def build_sdist(sdist_directory, config_settings=None):
    """Writes an archive of the sources into that folder, and returns its name."""
    base = _base()
    # The licenses are links to those of the repository; the archive has the files.
    with tarfile.open(pathlib.Path(sdist_directory, f"{base}.tar.gz"), "w:gz", dereference=True) as archive:
        for name in SOURCES:
            archive.add(HERE / name, f"{base}/{name}", filter=lambda it: None if "__pycache__" in it.name else it)
        metadata = _metadata().encode()
        info = tarfile.TarInfo(f"{base}/PKG-INFO")
        info.size = len(metadata)
        archive.addfile(info, io.BytesIO(metadata))
    return f"{base}.tar.gz"


def _project():
    return tomllib.loads((HERE / "pyproject.toml").read_text(encoding="utf-8"))["project"]


def _version():
    return re.search(r'^__version__ = "(.+)"$', (HERE / PACKAGE / "__init__.py").read_text(encoding="utf-8"), re.MULTILINE)[1]


def _base():
    return f"{_project()['name'].replace('-', '_')}-{_version()}"


def _metadata():
    project = _project()
    lines = ["Metadata-Version: 2.4", f"Name: {project['name']}", f"Version: {_version()}", f"Summary: {project['description']}",
             f"License-Expression: {project['license']}", f"Requires-Python: {project['requires-python']}", f"Keywords: {','.join(project['keywords'])}"]
    lines += [f"License-File: {name}" for name in project["license-files"]]
    lines += [f"Classifier: {classifier}" for classifier in project["classifiers"]]
    for extra, wanted in project["optional-dependencies"].items():
        lines += [f"Provides-Extra: {extra}", *(f"Requires-Dist: {package}; extra == '{extra}'" for package in wanted)]
    lines += ["Description-Content-Type: text/markdown", "", (HERE / project["readme"]).read_text(encoding="utf-8")]
    return "\n".join(lines)


def _write_wheel(directory, files):
    name, info = f"{_base()}-py3-none-any.whl", f"{_base()}.dist-info"
    project = _project()
    scripts = "".join(f"{script} = {function}\n" for script, function in project["scripts"].items())
    files = files | {f"{info}/licenses/{license}": (HERE / license).read_bytes() for license in project["license-files"]}
    files |= {f"{info}/METADATA": _metadata().encode(), f"{info}/WHEEL": WHEEL.encode(), f"{info}/entry_points.txt": f"[console_scripts]\n{scripts}".encode()}
    record = "".join(f"{path},sha256={_digest(content)},{len(content)}\n" for path, content in files.items()) + f"{info}/RECORD,,\n"
    with zipfile.ZipFile(pathlib.Path(directory, name), "w", zipfile.ZIP_DEFLATED) as wheel:
        for path, content in (files | {f"{info}/RECORD": record.encode()}).items():
            entry = zipfile.ZipInfo(path, TIME)
            entry.external_attr = 0o644 << 16
            wheel.writestr(entry, content, zipfile.ZIP_DEFLATED)
    return name


def _digest(content):
    return base64.urlsafe_b64encode(hashlib.sha256(content).digest()).rstrip(b"=").decode()
