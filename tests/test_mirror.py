"""Tests `treedb-mirror` on a PostgreSQL of its own: what is mirrored is what the store has, each row once, whatever is killed; and a store that is made of a mirror has each answered call.

What needs PostgreSQL or psycopg is skipped where there is none.
"""

import contextlib
import json
import random
import re
import shutil
import sqlite3
import subprocess
import sys
import time

from postgres import Mirroring, clusters, mirror, mirror_environment, python
from running import TOP, Threads, chance, fixture, until
from serving import ADD, Peer, serving
from test_follow import comes
from test_keys import once
from test_replacing import adds, replace
from test_store import batch, call, lines
from test_volumes import asked, end, sums, turn, volumes

SOCKET = "followers"
FOLLOW = ("--follow-socket", SOCKET)
SEAL, GROW = json.dumps({"op": "seal"}), json.dumps({"op": "grow", "parents": [0, 0]})
FIELDS = ", ".join(f"f{field}" for field in range(8))
# The columns of a volume's tables in the mirror, and in the file of the volume.
TABLES = {
    "procedure": ("id, name, encode(container, 'hex')", "number, name, lower(hex(container))"),
    "call": ("id, epoch, number, procedure, replace(arguments::text, ' ', ''), encode(key, 'hex')", "id, epoch, number, procedure, arguments, case when key is not null then lower(hex(key)) end"),
    "turn": ("id, epoch, encode(calls, 'hex')", "id, epoch, lower(hex(calls))"),
    "reply": ("id, epoch, call, replace(reply::text, ' ', '')", "id, epoch, call, reply"),
    "seal": ("id, procedures, calls, turns, replies", "epoch, procedures, calls, turns, replies"),
    "opening": (f"node, {FIELDS}", f"node, {FIELDS}"),
}
# A key is any text of so many bytes.
ODD = "\0 \t\\n\\ \n ' é"
# How often each of server, mirror and PostgreSQL is killed, and how many callers there are.
KILLS, CALLERS = 3, 4


@fixture
def make():
    """Makes clusters of PostgreSQL."""
    with clusters() as making:
        yield making


@fixture
def cluster(make):
    """A PostgreSQL with an empty database."""
    return make().start().made()


def file_rows(path, question):
    with contextlib.closing(sqlite3.connect(f"file:{path}?mode=ro", uri=True)) as database:
        return [list(row) for row in database.execute(question)]


def same_rows(tests, cluster, path, volume=0, is_live=True):
    """The mirror has the rows of the volume's file."""
    for table, (mirrored, stored) in TABLES.items():
        found = cluster.rows(f"select {', '.join(f'{column} as c{place}' for place, column in enumerate(parted(mirrored)))} from treedb.{table} where volume = {volume} order by 1")
        tests.same(f"{path.name}: {table}", found, file_rows(path, f"select {stored} from {table} order by 1"))
    nodes = file_rows(path, "select number, parent, epoch from node order by 1")
    found = cluster.rows(f"select id, parent, greatest(epoch - {volume}, 0) as since from treedb.node where id < {len(nodes)} order by id")
    tests.same(f"{path.name}: its nodes", found, nodes)
    if is_live:
        tests.same(f"{path.name}: records", cluster.rows(f"select id, {FIELDS} from treedb.node order by id"), file_rows(path, f"select node, {FIELDS} from record order by node"))


def parted(columns):
    """Columns, which may be calls of functions."""
    return re.split(r", (?![^(]*\))", columns)


def mirrored(tests, cluster, *words):
    """Mirrors all that is stored now."""
    run = mirror(cluster, "--owner", "a", "follow", "--socket", tests.path(SOCKET), "--once", *words)
    tests.same("the mirror's run", (run.returncode, run.stderr), (0, ""))


def following(tests, cluster, *words, owner="a"):
    return Mirroring(cluster, "--owner", owner, "follow", "--socket", tests.path(SOCKET), *words)


def has(cluster, count):
    """Whether so many calls have replies in the mirror."""
    with contextlib.suppress(AssertionError):
        return int(cluster.sql("select count(*) from treedb.reply")) >= count
    return False


def again(tests, store, *words):
    return serving(tests, "--store", store, *FOLLOW, *words, connections=None, tree=None)


def work(server, number):
    """Calls of all kinds, with keys, a growth, procedures that are replaced, and seals."""
    asked(server, *([ADD] if number == 0 else []), once(f"key {number}", 0, number), batch(2, 3), GROW, call(2 * number + 1, 7), replace(adds("add", number + 1)), call(0, 1), SEAL, call(0, 5))


def test_rows(tests, cluster):
    """What is mirrored is what stands in the file in the end, also where a mirror begins late and is asked to go on."""
    with serving(tests, "--store", "things.db", *FOLLOW, connections=None) as server:
        with following(tests, cluster) as running:
            for number in range(3):
                work(server, number)
            asked(server, once(ODD, 0, 1))
            until(lambda: has(cluster, 12), "the mirror has the calls")
            running.kill()
        work(server, 3)
        mirrored(tests, cluster)
        server.kill()
    same_rows(tests, cluster, tests.path("things.db"))
    with again(tests, "things.db") as server:
        work(server, 4)
        mirrored(tests, cluster)
        server.kill()
    same_rows(tests, cluster, tests.path("things.db"))


def test_volumes(tests, cluster):
    """The rows of each volume, the nodes once, and the calls of all volumes with the epoch among all."""
    with serving(tests, "--store", "things/", *FOLLOW, connections=None) as server:
        with following(tests, cluster):
            for number in range(3):
                work(server, number)
                tests.same(f"volume {number}", turn(tests, server).status, 0)
            work(server, 3)
            until(lambda: has(cluster, 16), "the mirror has the calls")
        mirrored(tests, cluster)
        server.kill()
    found = volumes(tests)
    tests.same("its volumes", cluster.rows("select distinct volume from treedb.opening order by 1"), [[number] for number in found])
    for number in found:
        same_rows(tests, cluster, tests.path(f"things/{number}.db"), number, number == found[-1])
    wanted = [[number + epoch, place] for number in found for epoch, place in file_rows(tests.path(f"things/{number}.db"), "select epoch, number from call order by id")]
    tests.same("calls of all volumes", cluster.rows("select epoch, number from treedb.calls order by epoch, number"), wanted)
    tests.same("each node once", cluster.sql("select count(*) from treedb.node"), "9")


def caller(port, own, answered, keys):
    """Calls under keys until the server is gone, and notes what it was answered."""
    with contextlib.suppress(OSError, ValueError, KeyError):
        peer = Peer(port)
        while True:
            key = f"{own} {next(keys)}"
            answered[key] = json.loads(peer.ask(once(key, 0, 1)))["reply"]


def under_load(server, answered, keys):
    return Threads(*((caller, server.port, own, answered, keys) for own in range(CALLERS)))


def recalled_all(tests, server, answered):
    """Each call that was answered is stored, with that reply."""
    peer, lost = Peer(server.port), {}
    for key, value in answered.items():
        peer.send(once(key, 0, 0))
        answer = json.loads(peer.lines.readline())
        if "stored" not in answer or answer["reply"] != value:
            lost[key] = answer
    peer.close()
    tests.same(f"of {len(answered)} answered calls these are lost", lost, {})
    tests.check("there were calls", len(answered) > CALLERS, len(answered))


def test_kills(tests, cluster):
    """Server, mirror and PostgreSQL are killed in turn under load: each row is mirrored once."""
    answered, keys, chances = {}, iter(range(10**9)), chance("mirror")
    with serving(tests, "--store", "things.db", *FOLLOW, connections=None) as server:
        asked(server, ADD)
        server.kill()
    for number in range(KILLS):
        with again(tests, "things.db") as server:
            running, threads = following(tests, cluster), under_load(server, answered, keys)
            time.sleep(chances.uniform(0.5, 1.5))
            running.kill()
            with following(tests, cluster):
                time.sleep(chances.uniform(0.5, 1.5))
                cluster.end()
                time.sleep(chances.uniform(0, 0.5))
                cluster.start()
                time.sleep(chances.uniform(0.5, 1.5))
                server.kill()
                threads.join()
    with again(tests, "things.db") as server:
        recalled_all(tests, server, answered)
        mirrored(tests, cluster)
        server.kill()
    same_rows(tests, cluster, tests.path("things.db"))


def restored(tests, cluster, store, owner="b"):
    run = mirror(cluster, "--owner", owner, "restore", f"{tests.folder}/{store}")
    tests.same(f"{store} is made", (run.returncode, run.stderr), (0, ""))
    return json.loads(run.stdout or "null")


def test_restore_a_file(tests, cluster):
    """A store that is made of a mirror is the one that was mirrored, and a server goes on with it, and the mirror with that."""
    with serving(tests, "--store", "things.db", *FOLLOW, connections=None) as server:
        for number in range(3):
            work(server, number)
        asked(server, once(ODD, 0, 1))
        mirrored(tests, cluster)
        server.kill()
    restored(tests, cluster, "other.db")
    same_files(tests, tests.path("other.db"), tests.path("things.db"))
    tests.same("its mode", tests.path("other.db").stat().st_mode & 0o777, 0o600)
    run = mirror(cluster, "--owner", "b", "restore", tests.path("other.db"))
    tests.check("what is there isn't replaced", run.returncode == 1 and "there is such a file" in run.stderr, run)
    run = mirror(cluster, "--owner", "b", "restore", tests.path("third.db"))
    tests.check("another server has another name", run.returncode == 1 and "that of b already" in run.stderr and not tests.path("third.db").exists(), run)
    tests.same("the audit", tests.run("audit", "other.db").status, 0)
    with again(tests, "other.db") as server:
        found = asked(server, *(once(f"key {number}", 0, 0) for number in range(3)))
        tests.same("what came of keys", [json.loads(each)["reply"] for each in found], [json.loads(value) for value in replies_of_keys(tests.path("things.db"))])
        work(server, 3)
        run = mirror(cluster, "--owner", "b", "follow", "--socket", tests.path(SOCKET), "--once")
        tests.same("the mirror goes on", (run.returncode, run.stderr), (0, ""))
        server.kill()
    same_rows(tests, cluster, tests.path("other.db"))


def replies_of_keys(path):
    return [value for (value,) in file_rows(path, "select reply.reply from call join reply on reply.epoch = call.epoch and reply.call = call.number where key like 'key %' order by call.id")]


def same_files(tests, one, other):
    for table in ("node", "record", "procedure", "call", "turn", "reply", "seal", "opening", "name"):
        tests.same(f"{one.name}: {table}", *(file_rows(path, f"select * from {table} order by 1") for path in (one, other)))


def test_restore_a_folder(tests, cluster):
    """A folder of all volumes, at whichever end of a volume the mirror is; the old keys are found in them."""
    with serving(tests, "--store", "things/", *FOLLOW, connections=None) as server:
        for number in range(2):
            work(server, number)
            turn(tests, server)
        mirrored(tests, cluster)
        work(server, 2)
        at = restored(tests, cluster, "early/")
        tests.same("at the beginning of a volume", at[0], volumes(tests)[-1])
        run = mirror(cluster, "--owner", "b", "follow", "--socket", tests.path(SOCKET), "--once")
        tests.same("the mirror of the new owner", (run.returncode, run.stderr), (0, ""))
        server.kill()
    restored(tests, cluster, "other/", owner="c")
    tests.same("its volumes", volumes(tests, "other"), volumes(tests))
    for number in volumes(tests):
        same_files(tests, tests.path(f"other/{number}.db"), tests.path(f"things/{number}.db"))
    for folder, count in (("early", 2), ("other", 3)):
        tests.same(f"{folder}: the audit", tests.run("audit", folder).status, 0)
        with again(tests, f"{folder}/") as server:
            wanted = {f"key {number}": value for number, value in enumerate(reply for each in volumes(tests) for reply in map(json.loads, replies_of_keys(tests.path(f"things/{each}.db"))))}
            found = [json.loads(each) for each in asked(server, *(once(key, 0, 0) for key in [*wanted][:count]))]
            tests.same(f"{folder}: what came of keys", [each.get("reply") for each in found], [*wanted.values()][:count])
            end(tests, server, f"{folder}: its end")


def mirrored_while(tests, cluster, condition):
    """Mirrors answer by answer while that holds of the position."""
    code = f"""import psycopg, sys
from treedb.follow import Follower
from treedb.mirror import Mirror
mirror, follower = Mirror(lambda: psycopg.connect(sys.argv[1]), owner="a"), Follower(path=sys.argv[2])
while mirror.at is None or {condition}:
    mirror.take(follower.rows(mirror.at, mirror.records_of_volume()))
"""
    subprocess.run([python(), "-c", code, cluster.at(), tests.path(SOCKET)], env=mirror_environment(), check=True)


def test_restore_between_volumes(tests, cluster):
    """Where the mirror has all of a closed volume and nothing of the next one, a server on the folder begins that one, and the mirror goes on with it."""
    with serving(tests, "--store", "things/", *FOLLOW, connections=None) as server:
        work(server, 0)
        turn(tests, server)
        asked(server, call(0, 1))
        mirrored_while(tests, cluster, "mirror.at.volume == 0")
        server.kill()
    live = volumes(tests)[-1]
    tests.same("the position", restored(tests, cluster, "other/"), [live, *[0] * 6])
    tests.same("its volumes", (volumes(tests, "other"), sums(tests, "other")), ([0], (True, ["0.db"])))
    same_files(tests, tests.path("other/0.db"), tests.path("things/0.db"))
    with again(tests, "other/") as server:
        tests.same("the old key", json.loads(asked(server, once("key 0", 0, 0))[0])["reply"], [5])
        work(server, 1)
        run = mirror(cluster, "--owner", "b", "follow", "--socket", tests.path(SOCKET), "--once")
        tests.same("the mirror goes on", (run.returncode, run.stderr, volumes(tests, "other")), (0, "", [0, live]))
        server.kill()
    same_rows(tests, cluster, tests.path(f"other/{live}.db"), live)


def test_restore_behind(tests, cluster):
    """A mirror that is more than an epoch behind lacks the records of its last seal: so no store is made, and it says why."""
    with serving(tests, "--store", "things.db", *FOLLOW, connections=None) as server:
        asked(server, ADD, *[line for amount in range(3) for line in (call(0, amount), SEAL)])
        mirrored_while(tests, cluster, "mirror.at.seals < 2")
        server.kill()
    run = mirror(cluster, "--owner", "b", "restore", tests.path("other.db"))
    tests.check("it says why", run.returncode == 1 and "more than an epoch behind" in run.stderr, run)
    tests.check("no store is there", not tests.path("other.db").exists(), "other.db")


def test_fence(tests, cluster):
    """Once a store is made for another server, no answer leaves the old one, whose mirror ends and doesn't begin again."""
    answered, keys = {}, iter(range(10**9))
    with serving(tests, "--store", "things.db", *FOLLOW, "--wait-for", "1", connections=None) as server:
        with following(tests, cluster, "--hold") as running:
            asked(server, ADD)
            threads = under_load(server, answered, keys)
            until(lambda: len(answered) > 20, "answers come")
            restored(tests, cluster, "other.db")
            before = dict(answered)
            status, said = running.end()
            tests.check("the old mirror ends", status == 1 and "are those of b now" in said, (status, said))
            run = mirror(cluster, "--owner", "a", "follow", "--socket", tests.path(SOCKET), "--hold")
            tests.check("and doesn't begin again", run.returncode == 1 and "are those of b now" in run.stderr, run)
            tests.same("no answer left", answered, before)
            server.kill()
            threads.join()
    with again(tests, "other.db") as server:
        recalled_all(tests, server, answered)
        end(tests, server, "its end")


def test_failover(tests, make):
    """The first machine is lost under load, with its server, its store and its PostgreSQL. The second one has a standby of that PostgreSQL, and each answered call."""
    answered, keys, first = {}, iter(range(10**9)), make().start().made()
    second = make(of=first)
    first.end()
    first.settings.append("synchronous_standby_names=*")
    first.start()
    second.start()
    until(lambda: first.sql("select count(*) from pg_stat_replication where sync_state = 'sync'") == "1", "the standby follows")
    with serving(tests, "--store", "things.db", *FOLLOW, "--wait-for", "1", connections=None) as server, following(tests, first, "--hold"):
        asked(server, ADD)
        threads = under_load(server, answered, keys)
        until(lambda: len(answered) > 50, "answers come")
        time.sleep(random.uniform(0, 0.5))
        first.end()
        server.kill()
        threads.join()
    for left in tests.folder.glob("things.db*"):
        left.unlink()
    second.do("pg_ctl", "promote", "-w", "-D", second.data)
    restored(tests, second, "other.db")
    with again(tests, "other.db", "--wait-for", "1") as server, following(tests, second, "--hold", owner="b"):
        recalled_all(tests, server, answered)
        server.kill()


def test_broken_off(tests, cluster):
    """A commit that waits for a standby, and is broken off there, isn't held: no answer leaves before a standby, or nobody, is waited for."""
    def waits_for(standby):
        cluster.sql(f"alter system set synchronous_standby_names = '{standby}'")
        cluster.sql("select pg_reload_conf()")

    def is_waiting():
        return cluster.sql("select count(*) from pg_stat_activity where application_name = 'mirror' and wait_event = 'SyncRep'") == "1"

    with serving(tests, "--store", "things.db", *FOLLOW, "--wait-for", "1", connections=None) as server, following(tests, cluster, "--hold"):
        asked(server, ADD, call(0, 1))
        waits_for("nobody")
        peer = Peer(server.port)
        peer.send(call(0, 2))
        for number in range(2):
            until(is_waiting, "the mirror waits for its standby")
            tests.check(f"no answer before it is broken off {number}", not comes(peer, 0.2), "an answer came")
            cluster.sql("select pg_cancel_backend(pid) from pg_stat_activity where application_name = 'mirror'")
        tests.check("no answer behind it", not comes(peer, 1.5), "an answer came")
        waits_for("")
        tests.same("the answer", json.loads(peer.lines.readline()).get("reply"), [8])
        server.kill()


def test_without_waiting(tests, cluster):
    """Without --wait-for the mirror lacks what was answered since it was stopped: so the tests above would find a call that is lost."""
    with serving(tests, "--store", "things.db", *FOLLOW, connections=None) as server:
        asked(server, ADD, once("first", 0, 1))
        mirrored(tests, cluster)
        asked(server, once("second", 0, 1))
        server.kill()
    restored(tests, cluster, "other.db")
    with again(tests, "other.db") as server:
        tests.same("which are stored", ["stored" in json.loads(each) for each in asked(server, once("first", 0, 0), once("second", 0, 0))], [True, False])
        end(tests, server, "its end")


def test_other_stores(tests, cluster):
    """A mirror stops, and says why, where the store was put back to an earlier copy, or is another one."""
    with serving(tests, "--store", "things.db", *FOLLOW, connections=None) as server:
        asked(server, ADD, call(0, 1), SEAL)
        server.kill()
    for name in ("things.db", "things.db-wal"):
        if tests.path(name).exists():
            shutil.copy(tests.path(name), tests.path(name.replace("things", "early")))
    with again(tests, "things.db") as server:
        asked(server, call(0, 2), SEAL, call(0, 3), SEAL, call(0, 4))
        mirrored(tests, cluster)
        server.kill()
    follow = ("--owner", "a", "follow", "--socket", tests.path(SOCKET), "--once")
    with again(tests, "early.db") as server:
        run = mirror(cluster, *follow)
        tests.check("an earlier copy", run.returncode == 1 and "[1021]" in run.stderr, run)
        asked(server, call(0, 2), SEAL, call(0, 3), SEAL, *[call(0, 17)] * 5)
        run = mirror(cluster, *follow)
        tests.check("which went on otherwise", run.returncode == 1 and re.search(r"isn't the one that was mirrored|\[1021\]", run.stderr), run)
        server.kill()


def test_fresh(tests, cluster):
    """With --fresh the records in the mirror aren't older than that."""
    with serving(tests, "--store", "things.db", *FOLLOW, connections=None) as server:
        asked(server, ADD)
        with following(tests, cluster, "--fresh", "0.2", "--calls-port", server.port):
            for amount, wanted in ((3, 8), (4, 12)):
                asked(server, call(0, amount))
                until(lambda: has(cluster, 1) and cluster.sql("select f0 from treedb.node") == str(wanted), "the record is there")
        tests.same("the record", cluster.rows("select f0 from treedb.node"), [[12]])
        server.kill()


def test_page(tests, cluster):
    """The questions of docs/use/mirror.md, on the stock of the examples, give what the page says."""
    page = (TOP / "docs/use/mirror.md").read_text(encoding="utf-8")
    stock = "examples/stock/"
    tests.path("names.json").write_text((TOP / stock / "names.json").read_text())
    with serving(tests, "--store", "things.db", "--proc", f"{stock}stock.tdb", *FOLLOW, connections=None, tree=f"{stock}tree.json") as server:
        asked(server, *(json.dumps({"op": "call", "proc": "transfer", "args": [5, aisle, shelf, 0, 1, 0, 0]}) for aisle in (0, 1) for shelf in (0, 1)), SEAL)
        mirrored(tests, cluster)
        server.kill()
    for words in (("name", tests.path("names.json")), ("fields", TOP / stock / "stock.tdb")):
        run = mirror(cluster, *words)
        tests.same(f"{words[0]}", (run.returncode, run.stderr), (0, ""))
    asked_there = re.findall(r"```sql\n(.*?)```", page, re.DOTALL)
    tests.check("there are questions", len(asked_there) >= 2, page)
    for question in asked_there:
        tests.check(question, cluster.do("psql", "-XqtA", "-v", "ON_ERROR_STOP=1", "-c", f"set search_path to treedb; {question}", cluster.at()) != "", "no rows")


def test_without_psycopg(tests):
    """Nothing of the client needs psycopg but a run of the mirror, which says so."""
    code = "import sys; sys.modules['psycopg'] = None; import treedb.mirror; sys.exit(treedb.mirror.main(['--database', 'x', 'follow', '--port', '1']))"
    run = subprocess.run([sys.executable, "-c", code], env=mirror_environment(), capture_output=True, text=True, check=False)
    tests.check("it says what is missing", run.returncode == 2 and "psycopg" in run.stderr, run)


def test_mistakes(tests, cluster):
    """Words that ask for nothing, and a mirror that has nothing."""
    for words in (("restore", "x.db"), ("--schema", "A b", "follow", "--port", "1"), ("follow", "--port", "1", "--fresh", "1"), ("follow", "--port", "1", "--fresh", "0", "--calls-port", "2"), ("follow",), ("--owner", "b", "restore")):
        tests.same(f"a mistake: {words}", mirror(cluster, *words).returncode, 2)
    with serving(tests, "--store", "things.db", *FOLLOW, connections=None) as server:
        run = mirror(cluster, "--owner", "a", "restore", tests.path("none.db"))
        tests.check("no mirror", run.returncode == 1 and not tests.path("none.db").exists(), run)
        end(tests, server, "its end")
    tests.same("no tables", lines(*cluster.rows("select 1 as one from information_schema.tables where table_schema = 'treedb'")), "")
