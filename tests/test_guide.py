"""Runs each command of the pages that show some, and compares what it prints with what the page says. Each block of definitions on a page has to stand in the file that the page names above
it, and each link of each page has to lead somewhere.

A command is an indented line that begins with `$ `; the indented lines below it are what it prints on standard output, where
`..` stands for any text. The commands of a page go to one shell, in order. One that ends with `&` is begun in the background,
and the next waits until the server's port is listening. A block that is fenced and says `file=NAME` is written to that file before the commands below it. The ports 7878 and 7879
of the page are other ones here, which are free. A link is one of Markdown's, or the name of a page in backticks.
"""

import contextlib
import os
import pathlib
import re
import select
import shutil
import signal
import subprocess
import time
from typing import NamedTuple

import treedb.tables
from running import PATIENCE, TOP, Found, Hangs, before_program, files_of_repository, free_port, until
from unproved import environment

PORT, CONTROL = "7878", "7879"
END = "the command has ended"


class Command(NamedTuple):
    """A command of a page, and the lines below it."""

    text: str
    wanted: list


class File(NamedTuple):
    """A file that a page shows."""

    name: str
    text: str


def steps(page):
    """The commands and files of a page, in order."""
    found, file = [], None
    for line in page.split("\n"):
        if file is not None:
            if line == "```":
                found.append(File(file[0], "".join(f"{line}\n" for line in file[1:])))
                file = None
            else:
                file.append(line)
        elif fence := re.fullmatch(r"```\w+ file=(\S+)", line):
            file = [fence[1]]
        elif line.startswith("    $ "):
            found.append(Command(line[6:], []))
        elif line.startswith("    ") and found and isinstance(found[-1], Command):
            found[-1].wanted.append(line[4:])
        elif found and found[-1] is not None:
            # A line that isn't indented ends what a command prints.
            found.append(None)
    return [step for step in found if step is not None]


def is_listening(port):
    """Whether somebody listens on the port. A connection would be one of the server's."""
    number = f":{int(port):04X}"
    lines = pathlib.Path("/proc/net/tcp").read_text().split("\n")[1:]
    return any(words[1].endswith(number) and words[3] == "0A" for words in map(str.split, lines) if len(words) > 3)


def wait_for(port):
    until(lambda: is_listening(port), f"nobody listens on {port}")


def is_as_said(printed, wanted):
    """Whether a line is the page's, in which `..` stands for any text."""
    return re.fullmatch(".*".join(map(re.escape, wanted.split(".."))), printed) is not None


class Shell:
    """One shell, to which commands go one after another. What it has begun in the background ends with it."""

    def __init__(self, folder):
        self.process = subprocess.Popen(["bash", "--norc"], cwd=folder, stdin=subprocess.PIPE, stdout=subprocess.PIPE, stderr=subprocess.DEVNULL, start_new_session=True, preexec_fn=before_program())

    def run(self, command):
        """The lines that the command prints."""
        self.process.stdin.write(f"{command}\nprintf '%s\\n' '{END}'\n".encode())
        self.process.stdin.flush()
        printed, end = b"", time.monotonic() + PATIENCE
        while not f"\n{printed.decode(errors='replace')}".endswith(f"\n{END}\n"):
            if not select.select([self.process.stdout], [], [], max(end - time.monotonic(), 0))[0]:
                raise Hangs(f"the command hadn't ended after {PATIENCE:.0f} s: {command}")
            part = os.read(self.process.stdout.fileno(), 65536)
            if not part:
                return [*printed.decode().splitlines(), "the shell has ended"]
            printed += part
        return printed.decode().split("\n")[:-2]

    def end(self):
        self.process.stdin.close()
        with contextlib.suppress(subprocess.TimeoutExpired):
            self.process.wait(timeout=60)
        with contextlib.suppress(ProcessLookupError):
            os.killpg(self.process.pid, signal.SIGKILL)
        self.process.wait()


def tried(tests, page):
    """Each command of the page prints what the page says."""
    for part in ("clients", "viewer"):
        shutil.copytree(TOP / part, tests.path(part), ignore=shutil.ignore_patterns("__pycache__"))
    # Behind `--unproved` a kit runs what was built before.
    kit = " ".join(f"{name}={value}" for name, value in environment(tests.folder, tests.program).items())
    tests.path("treedb").write_text(f'#!/usr/bin/env bash\n[[ "${{1:-}}" == --unproved ]] && {kit} exec {TOP}/treedb "$@"\nexec -a treedb {tests.program} "$@"\n')
    tests.path("treedb").chmod(0o755)
    run_in(tests, page, tests.folder)


def run_in(tests, page, folder, changed=lambda text: text):
    """Runs the commands of a page in that folder, where `./treedb` is the program; of the page as it is changed."""
    shell, port, control = Shell(folder), str(free_port()), str(free_port())
    try:
        for step in steps(changed((TOP / page).read_text()).replace(PORT, port).replace(CONTROL, control)):
            if isinstance(step, File):
                (folder / step.name).write_text(step.text)
                continue
            command, wanted = step
            printed = shell.run(command)
            if command.endswith("&"):
                wait_for(port)
            is_same = len(printed) == len(wanted) and all(map(is_as_said, printed, wanted))
            tests.check(f"{page}: $ {command}", is_same, Found(printed, wanted))
    finally:
        shell.end()
    assert tests.passed, f"{page} has no command that prints what it says"


def test_readme(tests):
    tried(tests, "README.md")


def test_guide(tests):
    tried(tests, "docs/use/guide.md")


def test_own_tree(tests):
    tried(tests, "docs/use/own-tree.md")


def test_testing(tests):
    tried(tests, "docs/use/testing.md")


def test_cookbook(tests):
    tried(tests, "docs/use/cookbook.md")


def test_definitions(tests):
    tried(tests, "docs/trust/definitions.md")


def test_ledger(tests):
    tried(tests, "examples/ledger/README.md")


def test_quota(tests):
    tried(tests, "examples/quota/README.md")


def test_definitions_stand_in_the_sources(tests):
    """Each definition of a page's blocks stands in the file that the page names above the block."""
    page = "docs/trust/definitions.md"
    for file, block in re.findall(r"`(crates/[^`]+)`\n\n```antt\n(.*?)```", (TOP / page).read_text(), re.DOTALL):
        source = (TOP / file).read_text()
        for definition in block.strip("\n").split("\n\n"):
            tests.check(f"{page}: it is in {file}", definition in source, definition)
    assert tests.passed, f"{page} has no definitions"


def test_limits(tests):
    """Each number of the page on limits is that of the constant that stands beside it."""
    page = "docs/use/limits.md"
    for what, numbers, constants in re.findall(r"^\| ([^|]+) \| ([^|]+) \| (`tl_[^|]+) \|", (TOP / page).read_text(), re.MULTILINE):
        names = re.findall(r"`(tl_\w+)::(\w+)`", constants)
        told = [int(number.replace(",", "")) for number in re.findall(r"\d[\d,]*\d|\d", numbers)][-len(names):]
        for (crate, name), number in zip(names, told, strict=True):
            found = [int(each) for path in (TOP / f"crates/{crate}/src").rglob("*.rt") for each in re.findall(rf"^pub const {name}: \w+ = ([\d_]+);", path.read_text(), re.MULTILINE)]
            tests.same(f"{page}: {what}: {name}", found, [number])
    assert tests.passed, f"{page} has no constants"


def constants(name):
    """The numbers of the constants of that name, by their crates."""
    pattern = re.compile(rf"^pub const {name}: \w+ = ([\d_]+);", re.MULTILINE)
    return {path.relative_to(TOP).parts[1]: int(found[1]) for path in TOP.glob("crates/*/src/**/*.rt") if (found := pattern.search(path.read_text()))}


def test_limits_of_clients(tests):
    """A table (CSV) has as many rows as the program takes nodes, and the second auditor takes what the first one does."""
    most, usual = constants("MOST_NODES")["tl_arguments"], constants("USUAL_NODES")["tl_tree"]
    tests.same("tables", (treedb.tables.MAX_NODES, treedb.tables.USUAL_NODES), (most, usual))
    told = [re.split(", ", part) for line in re.findall(r"^[A-Z_, ]+ = [\d_, ]+$", (TOP / "fuzz/audit.py").read_text(), re.MULTILINE) for part in line.split(" = ")]
    auditor = {name: int(number) for names, numbers in zip(told[::2], told[1::2], strict=True) for name, number in zip(names, numbers, strict=True)}
    wanted = {"USUAL_NODES": usual, "MAX_NODES": most, "MAX_CALLS": constants("MAX_CALLS")["tl_history"], "MAX_EVENTS": constants("MAX_EVENTS")["tl_history"], "MAX_REPLY": constants("MAX_EMITS")["tl_budget"],
              "MAX_PROCEDURES": constants("MAX_PROCEDURES")["tl_procedures"], "MAX_TRAILS": constants("MAX_TRAILS")["tl_trail"]}
    tests.same("the second auditor", auditor, wanted)


def anchors(page):
    """The anchors of a page's headings, as GitHub makes them."""
    headings = re.findall(r"^#+ (.+)$", page.read_text(), re.MULTILINE)
    return {re.sub(r"[^\w\- ]", "", heading.lower()).replace(" ", "-") for heading in headings}


def leads(page, target):
    """Whether a link of a page leads to a file of the repository, and to a heading of it where it names one."""
    if "://" in target:
        return True
    path, _, anchor = target.partition("#")
    file = page.parent / path if path else page
    return file.exists() and (not anchor or anchor in anchors(file))


def text_of(page):
    """The text of a page without its blocks."""
    return re.sub(r"^(```.*?^```|    .*?)$", "", page.read_text(), flags=re.MULTILINE | re.DOTALL)


def lost_links(page):
    """The links of a page that lead nowhere."""
    return [target for target in re.findall(r"\]\(([^)\s]+)\)", re.sub(r"`[^`\n]*`", "", text_of(page))) if not leads(page, target)]


def is_there(page, name):
    """Whether a page that is named in backticks is there: from the top, or beside the page that names it."""
    return (TOP / name).is_file() or (page.parent / name).is_file()


def test_the_promises_by_crate_are_those_of_the_sources():
    assert subprocess.run([TOP / "tools/promises", "--check"], check=False).returncode == 0, "tools/promises writes the page anew"


def test_links(tests):
    """Each link of each page leads somewhere."""
    for page in files_of_repository("*.md"):
        names = [name for name in re.findall(r"`([\w./-]+\.md)`", text_of(page)) if not is_there(page, name)]
        tests.same(f"{page.relative_to(TOP)}: what leads nowhere", [*lost_links(page), *names], [])


# A command of the program in code, with its words: an indented line, or between backticks.
CODE = re.compile(r"^    (.+)$|`([^`\n]+)`", re.MULTILINE)
COMMAND = re.compile(r"(?:\$ )?(?:\./)?treedb (?:--unproved )?([a-z]+)\b(.*)")


def test_options_that_pages_name(tests):
    """Each command that a page names is one of the program's, and has the options that stand behind it."""
    named = {}
    for page in files_of_repository("*.md"):
        for code in map("".join, CODE.findall(page.read_text(encoding="utf-8"))):
            if found := COMMAND.match(code.strip().partition(" | ")[0]):
                command, words = found.groups()
                named.setdefault(command, {}).update(dict.fromkeys(re.findall(r"(?<![\w-])--[a-z]+(?:-[a-z]+)*", words.partition("; ")[0]), page.relative_to(TOP)))
    tests.check("the pages name commands", len(named) > 15, sorted(named))
    for (command, options), run in zip(named.items(), tests.runs(*([command, "--help"] for command in named))):
        unknown = {option: str(page) for option, page in options.items() if not re.search(rf"{option}\b(?!-)", run.out)}
        tests.check(f"{command} and its options", run.status == 0 and unknown == {}, (run.status, unknown))
