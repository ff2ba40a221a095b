"""Installs the package for Debian into an empty root, and runs the front page's example by it."""

import os
import pathlib
import re
import shutil
import stat
import subprocess
import tempfile

from running import PATIENCE, TOP, fixture, tool
from test_guide import lost_links, run_in


@fixture(scope="module")
def root(program):
    """An empty root with the package in it. Whoever isn't root has it unpacked."""
    tool("dpkg-deb")
    with tempfile.TemporaryDirectory() as folder:
        made = subprocess.run([TOP / "tools/package", folder, "--debian", program], capture_output=True, text=True, timeout=PATIENCE, check=True).stdout.split()[2]
        top = pathlib.Path(folder, "root")
        base = top / "var/lib/dpkg"
        for name in ("info", "updates", "triggers"):
            (base / name).mkdir(parents=True)
        (base / "status").touch()
        installs = ["dpkg", f"--root={top}", "--force-depends", "--install", made] if os.geteuid() == 0 and shutil.which("dpkg") else ["dpkg-deb", "--extract", made, top]
        done = subprocess.run(installs, capture_output=True, text=True, timeout=PATIENCE, check=False)
        assert done.returncode == 0, done.stdout + done.stderr
        yield top


def test_what_is_installed(tests, root):
    pages = root / "usr/share/doc/treedb"
    for name in ("usr/bin/treedb", "usr/bin/treedb-serve", "usr/lib/sysusers.d/treedb.conf", "usr/share/treedb/viewer/index.html", "usr/share/doc/treedb/examples/stock/tree.json"):
        tests.check(name, (root / name).is_file(), "it isn't there")
    wrong = [str(path.relative_to(root)) for path in (root / "usr").rglob("*") if not path.is_symlink() and not path.stat().st_mode & stat.S_IROTH]
    tests.same("what others can't read", wrong, [])
    lost = {str(page.relative_to(pages)): found for page in pages.rglob("*.md") if (found := lost_links(page))}
    tests.same("links that lead nowhere", lost, {})


def test_the_unit(tests, root):
    """It is the one that the page shows, and hardened."""
    unit = (root / "usr/lib/systemd/system/treedb.service").read_text()
    tests.check("the page shows it", f"```ini\n{unit}```" in (TOP / "docs/use/operating.md").read_text(), unit)
    for line in ("ProtectSystem=strict", "NoNewPrivileges=yes", "UMask=0077", "ExecStop=/usr/bin/treedb stop --socket /run/treedb/control"):
        tests.check(line, f"\n{line}\n" in unit, unit)


def test_the_front_page(tests, root):
    run_in(tests, "README.md", root / "usr/share/doc/treedb")


def test_a_tree_of_ones_own(tests, root):
    """From a table (CSV) to a server on its tree, by the installed program, which needs no `--unproved`."""
    pages = root / "usr/share/doc/treedb"
    page = pages / "docs/use/own-tree.md"
    with tempfile.TemporaryDirectory() as folder:
        for name in ("treedb", "clients", "viewer"):
            pathlib.Path(folder, name).symlink_to((pages / name).resolve())
        run_in(tests, page, pathlib.Path(folder), lambda text: text.replace("./treedb --unproved ", "./treedb "))


def test_the_programs_of_the_client(tests, root):
    """Those that the client's package has, and no others, each under its name."""
    programs = re.findall(r"^(treedb-\w+) = ", (TOP / "clients/python/pyproject.toml").read_text(), re.MULTILINE)
    tests.same("their names", sorted(path.name for path in (root / "usr/bin").iterdir()), sorted(["treedb", "treedb-serve", *programs]))
    for name in programs:
        done = subprocess.run([root / "usr/bin" / name, "--help"], capture_output=True, text=True, timeout=PATIENCE, check=False)
        tests.check(f"{name} runs", done.returncode == 0 and f"usage: {name} " in done.stdout, done)
    done = subprocess.run([root / "usr/bin/treedb-shell", "-c", "explain 611"], capture_output=True, text=True, timeout=PATIENCE, check=False)
    tests.check("the shell", done.returncode == 0 and "choose another name" in done.stdout, done)


def completed(root, *words):
    """What bash would put in the place of the last word."""
    script = 'source "$1"; shift; COMP_WORDS=("$@"); COMP_CWORD=$(($# - 1)); _treedb; printf "%s\\n" "${COMPREPLY[@]}"'
    done = subprocess.run(["bash", "-c", script, "bash", root / "usr/share/bash-completion/completions/treedb", *words], cwd=root, capture_output=True, text=True, timeout=PATIENCE, check=False)
    return done.stdout.split()


def test_the_manual(tests, root):
    """The manual page has each command and each of its options, and groff finds no fault in it; bash completes commands, options and files."""
    page = root / "usr/share/man/man1/treedb.1"
    commands = completed(root, "treedb", "")[:-2]
    tests.check("the commands", "serve" in commands and "explain" in commands, commands)
    text = page.read_text()
    for command in commands:
        tests.check(f"{command} stands in the manual", f"\n.SS {command}\n" in text, text[:500])
        for option in completed(root, "treedb", command, "--"):
            tests.check(f"{command} {option} stands in its help", option in tests.run(command, "--help").out, option)
    tests.same("what begins so", completed(root, "treedb", "sn"), ["snapshot"])
    tests.same("options that begin so", completed(root, "treedb", "serve", "--so"), ["--socket"])
    tests.check("folders", "usr" in completed(root, "treedb", "serve", "--trails", "u"), completed(root, "treedb", "serve", "--trails", "u"))
    tests.same("a number has no completion", completed(root, "treedb", "serve", "--port", "u"), [])
    for name in ("zsh/vendor-completions/_treedb", "fish/vendor_completions.d/treedb.fish"):
        tests.check(name, "control-socket" in (root / "usr/share" / name).read_text(), name)
    if shutil.which("groff"):
        done = subprocess.run(["groff", "-man", "-ww", "-z", "-Tutf8", page], capture_output=True, text=True, timeout=PATIENCE, check=False)
        tests.same("what groff says of the page", (done.returncode, done.stderr), (0, ""))


def test_the_sums(tests, root):
    done = subprocess.run(["sha256sum", "--check", "SHA256SUMS"], cwd=root.parent, capture_output=True, text=True, timeout=PATIENCE, check=False)
    tests.same("the sums of the packages", (done.returncode, done.stdout.count(": OK")), (0, 3))
