"""What the tests of this folder are given, by the names of their parameters.

`pytest tests` and `tests/run` both read this file. The program is crates/tl_cli/out/tl_cli, or the one that the environment variable TREEDB_PROGRAM names.
"""

import contextlib
import json
import pathlib
import shutil
import sys
import tempfile

HERE = pathlib.Path(__file__).resolve().parent
sys.dont_write_bytecode = True
sys.path[:0] = [str(HERE), str(HERE.parent / "clients/python")]

from running import TOP, Tests, fixture, limited, program_named  # noqa: E402
from serving import Server  # noqa: E402


@fixture(scope="session")
def program():
    """The path of the program `treedb`."""
    return program_named("TREEDB_PROGRAM", "tl_cli", "./treedb --help")


@fixture
def folder():
    """A folder of its own for each test, with the examples."""
    with tempfile.TemporaryDirectory() as name:
        shutil.copytree(TOP / "examples", pathlib.Path(name, "examples"))
        yield pathlib.Path(name)


@fixture
def tests(program, folder):
    """The program in that folder, and what was checked."""
    return Tests(program, folder)


@fixture
def tree(folder):
    """Writes a tree into the folder, and answers the file's name: tree({"parents": [0], "records": [[5, 0, 0, 0, 0, 0, 0, 0]]})."""
    def write(value, name="tree.json"):
        (folder / name).write_text(json.dumps(value))
        return name

    return write


@fixture
def server(tests):
    """Starts servers, as `serving.Server` does: server("--trail", "trail.json", connections=2). What still runs at the end of the test is ended."""
    with contextlib.ExitStack() as started:
        def start(*words, **named):
            it = Server(tests, *words, **named)
            started.callback(it.kill)
            return it

        yield start


def pytest_pyfunc_call(pyfuncitem):
    """Runs a test for pytest, and has it fail where one of its checks did."""
    given = {name: pyfuncitem.funcargs[name] for name in pyfuncitem._fixtureinfo.argnames}
    with limited(pyfuncitem.name):
        pyfuncitem.obj(**given)
    if "tests" in given:
        given["tests"].judge()
    return True
