"""A PostgreSQL for tests: a cluster in a folder of its own, which ends with the test. PostgreSQL refuses root, so where the tests are root's, its files and processes are those of the user `postgres`."""

import contextlib
import functools
import json
import os
import pathlib
import pwd
import shutil
import signal
import subprocess
import sys
import tempfile

from running import LAST_WORDS, PATIENCE, REQUIRED, TOP, MissingProgram, before_program, skip, tool, until

USER, DATABASE, PORT = "treedb", "things", 5432
# Nobody cuts the power; and a cluster that is synchronous waits for its standby alone.
SETTINGS = ["fsync=off", "listen_addresses=", f"port={PORT}", "max_connections=40", "shared_buffers=16MB"]


def programs():
    """The folder with PostgreSQL's programs."""
    return pathlib.Path(tool("postgres")).resolve().parent


@functools.cache
def python():
    """A Python that has psycopg: what needs it is skipped where there is none."""
    for each in (sys.executable, "/usr/bin/python3"):
        if shutil.which(each) and subprocess.run([each, "-c", "import psycopg"], stderr=subprocess.DEVNULL, check=False).returncode == 0:
            return each
    if "psycopg" in REQUIRED:
        raise MissingProgram("there is no psycopg, which this machine shall have")
    return skip("there is no psycopg")


class Cluster:
    """A cluster of PostgreSQL at a socket in a folder. One of another cluster is its standby."""

    def __init__(self, folder, of=None):
        self.folder, self.data, self.process = folder, folder / "data", None
        self.settings = [*SETTINGS, f"unix_socket_directories={folder}"]
        folder.mkdir(mode=0o700, exist_ok=True)
        self.user = "postgres" if os.geteuid() == 0 else None
        if self.user:
            found = pwd.getpwnam(self.user)
            os.chown(folder, found.pw_uid, found.pw_gid)
        if of is None:
            self.do("initdb", "-D", self.data, "-U", USER, "--auth=trust", "--no-sync", "--encoding=UTF8", "--locale=C")
        else:
            self.do("pg_basebackup", "-D", self.data, "-R", "--checkpoint=fast", "-d", of.at(folder.name))

    def at(self, name="tests"):
        """Where it is, as libpq takes it."""
        return f"host={self.folder} port={PORT} user={USER} dbname={DATABASE} application_name={name}"

    def words(self, name, *words):
        as_whom = {"user": self.user, "group": self.user, "extra_groups": []} if self.user else {}
        return {"args": [programs() / name, *map(str, words)], "cwd": self.folder, "stdin": subprocess.DEVNULL, **as_whom}

    def do(self, name, *words):
        """What one of its programs prints."""
        done = subprocess.run(**self.words(name, *words), capture_output=True, text=True, timeout=PATIENCE, check=False)
        assert done.returncode == 0, f"{name}: {done.stderr}"
        return done.stdout.strip()

    def start(self):
        """Starts it, and answers it once it takes connections."""
        options = [word for setting in self.settings for word in ("-c", setting)]
        with open(self.folder / "log", "ab") as log:
            self.process = subprocess.Popen(**self.words("postgres", "-D", self.data, *options), stdout=log, stderr=log, preexec_fn=before_program())
        until(self.is_ready, f"PostgreSQL starts: {(self.folder / 'log').read_text()[-500:]}")
        return self

    def is_ready(self):
        with contextlib.suppress(AssertionError):
            self.do("psql", "-XqtAc", "select 1", self.at().replace(DATABASE, "postgres"))
            return True
        return False

    def made(self):
        """It with the database."""
        self.do("createdb", "-h", self.folder, "-p", PORT, "-U", USER, DATABASE)
        return self

    def end(self, how=signal.SIGQUIT):
        """Ends it, where it is: as a crash of it does, none of its connections is told."""
        if self.process:
            self.process.send_signal(how)
            self.process.wait(LAST_WORDS)
            self.process = None

    def sql(self, question):
        """What it answers, as text."""
        return self.do("psql", "-XqtAc", question, "-v", "ON_ERROR_STOP=1", self.at())

    def rows(self, question):
        """The rows that answer a question, as lists."""
        found = json.loads(self.sql(f"select coalesce(json_agg(row_to_json(rows)), '[]') from ({question}) as rows"))
        return [[*row.values()] for row in found]


@contextlib.contextmanager
def clusters():
    """Makes clusters: make() a new one, and make(of=cluster) a standby of one. In the end all are put away."""
    python()
    with tempfile.TemporaryDirectory(prefix="treedb-postgres-") as folder:
        pathlib.Path(folder).chmod(0o755)
        made = []

        def make(of=None):
            made.append(Cluster(pathlib.Path(folder, f"c{len(made)}"), of))
            return made[-1]

        try:
            yield make
        finally:
            for each in made:
                each.end()


def mirror_words(cluster, *words):
    return [python(), "-m", "treedb.mirror", "--database", cluster.at("mirror"), *map(str, words)]


def mirror_environment():
    return {**os.environ, "PYTHONPATH": str(TOP / "clients/python"), "PYTHONDONTWRITEBYTECODE": "1"}


def mirror(cluster, *words):
    """What a run of the mirror comes to."""
    return subprocess.run(mirror_words(cluster, *words), env=mirror_environment(), stdin=subprocess.DEVNULL, capture_output=True, text=True, timeout=PATIENCE, check=False)


class Mirroring:
    """A mirror that follows a server, until it is killed or ends."""

    def __init__(self, cluster, *words):
        self.said = tempfile.TemporaryFile("w+")
        self.process = subprocess.Popen(mirror_words(cluster, *words), env=mirror_environment(), stdin=subprocess.DEVNULL, stderr=self.said, preexec_fn=before_program())

    def kill(self):
        self.process.kill()
        self.process.wait()
        self.said.close()

    def end(self):
        """Its status and what it said, once it has ended by itself."""
        status = self.process.wait(PATIENCE)
        self.said.seek(0)
        return status, self.said.read()

    def __enter__(self):
        return self

    def __exit__(self, *_):
        self.kill()
