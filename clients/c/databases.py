"""SQLite over the VFS: Debian's shell and Python's module, each journal mode, kills of the store, and speedtest1."""
import os, random, shutil, signal, subprocess, sys, time
import speedtest
from fakes import is_there
from telling import told, skipped

MODES = ("DELETE", "TRUNCATE", "PERSIST", "MEMORY", "WAL")
LASTING = ("DELETE", "TRUNCATE", "PERSIST", "WAL")  # after a kill they have each commit that was acknowledged
MIDDLE, LARGE = (4096, 256, 4096), (32768, 1024, 32768)


def opened(folder, image, name="test.db"):
    """The lines that open a database of an image in the shell."""
    return [f".load {folder}/opfs_vfs", f".open 'file:{name}?vfs=opfs&image={image}'"]


def pragmas(mode):
    exclusive = ["PRAGMA locking_mode=EXCLUSIVE;"] if mode == "WAL" else []
    return [*exclusive, f"PRAGMA journal_mode={mode};"]


def shell(lines, bails=True, **more):
    """What Debian's shell prints of these lines; it ends at the first error, or goes on."""
    done = subprocess.run(["sqlite3", "-batch", *(["-bail"] if bails else [])], input="\n".join(lines) + "\n", capture_output=True, text=True, env={**os.environ, **more})
    return (done.stdout + done.stderr).split("\n")[:-1]


def expected(mode):
    return (["exclusive"] if mode == "WAL" else []) + [mode.lower()]


def check_mode(folder, format_image, mode):
    """Made in one process, read and changed in the next, and read in a third."""
    image = f"{folder}/{mode}.image"
    format_image(image, MIDDLE)
    make = ["CREATE TABLE t(n INTEGER PRIMARY KEY, v BLOB);", "WITH c(n) AS (SELECT 1 UNION ALL SELECT n + 1 FROM c WHERE n < 500)"
            " INSERT INTO t SELECT n, randomblob(n % 700) FROM c;", "BEGIN; DELETE FROM t WHERE n > 400; ROLLBACK;",
            "BEGIN; UPDATE t SET v = zeroblob(5000) WHERE n % 5 = 0; SAVEPOINT s; DELETE FROM t WHERE n < 100; ROLLBACK TO s; COMMIT;",
            "CREATE INDEX i ON t(v);", "DELETE FROM t WHERE n > 450;", "VACUUM;"]
    look = ["SELECT count(*), sum(n), sum(length(v)) FROM t;", "PRAGMA integrity_check;"]
    first = shell([*opened(folder, image), *pragmas(mode), *make, *look])
    wanted = expected(mode)
    told(f"{mode}: made by sqlite3", first[:-2] != wanted and f"it said {first}" or first[-1] != "ok" and f"integrity: {first[-1]}")
    second = shell([*opened(folder, image), *pragmas(mode), *look, "INSERT INTO t VALUES(1000, 'more');"])
    told(f"{mode}: read in another process", second != first and f"{second}, not {first}")
    third = shell([*opened(folder, image), *pragmas(mode), "SELECT v FROM t WHERE n = 1000;", "PRAGMA integrity_check;"])
    told(f"{mode}: changed by it", third != [*wanted, "more", "ok"] and f"it said {third}")


def check_shell(folder, format_image, check_record):
    """What else a shell does; and the verdict on all that was said in it."""
    image = f"{folder}/shell.image"
    format_image(image)
    lines = opened(folder, image, "a/b/../c.db") + [
        ".timeout 10", "CREATE TABLE t(x);", "INSERT INTO t VALUES('kept'), (x'00ff'), (zeroblob(100000));", "SELECT length(x) FROM t;",
        "ATTACH 'other.db' AS o;", "CREATE TABLE o.u(y);", "BEGIN; INSERT INTO t VALUES(1); INSERT INTO u VALUES(2); COMMIT;",
        "SELECT x + y FROM t, u WHERE t.rowid = 4;", "CREATE TEMP TABLE w AS SELECT * FROM t;", "SELECT count(*) FROM w;",
        f"VACUUM INTO 'file:copy.db?image={image}';", "PRAGMA integrity_check;", f".open 'file:copy.db?vfs=opfs&image={image}'",
        "SELECT count(*) FROM t;", f".open 'file:../other.db?vfs=opfs&image={image}&mode=ro'", "SELECT y FROM u;", "INSERT INTO u VALUES(3);"]
    found = shell(lines, OPFS_RECORD=f"{folder}/shell.record")
    wanted = ["4", "2", "100000", "3", "4", "ok", "4", "2"]
    told("the shell", (found[:-1] != wanted or "readonly" not in found[-1]) and f"it said {found}")
    for what, line, wanted in (("an image that is not there", opened(folder, f"{folder}/none")[1], "unable to open"),
                               ("a file that is no image", opened(folder, "/etc/passwd")[1], "unable to open"),
                               ("no image", ".open 'file:test.db?vfs=opfs'", "unable to open")):
        found = shell([opened(folder, image)[0], line, "SELECT 1;"])
        told(what, not any(wanted in it for it in found) and f"it said {found}")
    format_image(image)
    lines = [*opened(folder, image), "CREATE TABLE t(x);", "INSERT INTO t VALUES(1), (2);", "DELETE FROM t;", "SELECT count(*) FROM t;"]
    found = shell(lines, OPFS_RECORD=f"{folder}/shell.record")
    told("a shell that is recorded", found != ["0"] and f"it said {found}")
    check_record("sqlite3's conversation", f"{folder}/shell.record")


PYTHON = """
import sqlite3, sys, threading
folder, image = sys.argv[1:]
def load(c):
    c.enable_load_extension(True)
    c.load_extension(folder + "/opfs_vfs")
    return c
def fails(code, *words, **more):
    try:
        c = sqlite3.connect(*words, **more)
        c.execute(code).fetchall()
        return "no failure"
    except sqlite3.Error as error:
        return str(error)
load(sqlite3.connect(":memory:"))
name = "file:python.db?vfs=opfs&image=" + image
c = sqlite3.connect(name, uri=True)
c.execute("create table t(n integer primary key, v blob)")
with c:
    c.executemany("insert into t values(?, ?)", [(n, bytes([n % 256]) * n) for n in range(2000)])
try:
    with c:
        c.execute("delete from t")
        raise ValueError
except ValueError:
    pass
print(c.execute("select count(*), sum(length(v)) from t").fetchone())
print(fails("select 1", name, uri=True))
print(fails("select 1", "file:python.db?vfs=opfs&image=" + image + "&origin=https://b.example", uri=True))
d = sqlite3.connect("file:second.db?vfs=opfs&image=" + image, uri=True)
d.execute("create table u(x)")
print(c.execute("pragma integrity_check").fetchone()[0], d.execute("pragma journal_mode").fetchone()[0])
print(fails("select * from t", "file:none.db?vfs=opfs&mode=rw&image=" + image, uri=True))
c.close()
d.close()
both = [sqlite3.connect(name + "&mode=ro", uri=True) for _ in range(2)]
print([it.execute("select max(n) from t").fetchone()[0] for it in both], fails("select 1", name, uri=True))
for it in both:
    it.close()
def work(k):
    own = sqlite3.connect("file:thread%d.db?vfs=opfs&image=%s" % (k, image), uri=True)
    own.execute("create table t(x)")
    for n in range(20):
        with own:
            own.execute("insert into t values(?)", (n * k,))
    sums[k] = own.execute("select sum(x) from t").fetchone()[0]
    own.close()
sums = {}
threads = [threading.Thread(target=work, args=(k,)) for k in range(1, 4)]
for it in threads:
    it.start()
for it in threads:
    it.join()
print(sums[1], sums[2], sums[3])
c = sqlite3.connect(name, uri=True)
print(all(bytes([n % 256]) * n == v for n, v in c.execute("select n, v from t")))
"""


def pythons():
    """A Python whose sqlite3 module loads extensions; None where there is none."""
    test = "import sqlite3; sqlite3.connect(':memory:').enable_load_extension(True)"
    for it in ("python3", "/usr/bin/python3"):
        if shutil.which(it) and not subprocess.run([it, "-c", test], stderr=subprocess.DEVNULL).returncode:
            return it
    return None


def check_python(folder, format_image):
    image, python = f"{folder}/python.image", pythons()
    if not python:
        return skipped("Python's sqlite3", "it can't load extensions on this machine")
    format_image(image, MIDDLE)
    done = subprocess.run([python, "-c", PYTHON, folder, image], capture_output=True, text=True)
    wanted = ["(2000, 1999000)", "database is locked", "unable to open database file", "ok delete", "unable to open database file",
              "[1999, 1999] database is locked", "190 380 570", "True"]
    told("Python's sqlite3", done.stdout.split("\n")[:-1] != wanted and f"it said {done.stdout} {done.stderr}")


def check_full(folder, format_image):
    """A database that fills its image stays whole, also where nothing is synced."""
    fill = "WITH c(n) AS (SELECT 1 UNION ALL SELECT n + 1 FROM c WHERE n < %d) INSERT INTO t SELECT randomblob(3000) FROM c;"
    look = ["SELECT count(*) FROM t;", "PRAGMA integrity_check;"]
    for mode, synced in (("DELETE", "FULL"), ("TRUNCATE", "OFF"), ("PERSIST", "FULL"), ("WAL", "FULL")):
        image = f"{folder}/full.image"
        format_image(image, (200, 16, 200))
        begin = [*opened(folder, image), *pragmas(mode), f"PRAGMA synchronous={synced};"]
        found = shell([*begin, "CREATE TABLE t(x);", fill % 20, fill % 1000, *look], bails=False)[len(expected(mode)):]
        told(f"{mode}, synchronous {synced}: an image that is full", (found[:2] != ["20", "ok"] or not any("full" in it for it in found)) and f"it said {found}")
        found = shell([*begin, *look, "DELETE FROM t;", fill % 5, *look])[len(expected(mode)):]
        told(f"{mode}, synchronous {synced}: it is whole behind that", found != ["20", "ok", "5", "ok"] and f"it said {found}")


# Kills. Each transaction has a number, writes it in three tables, and is acknowledged by a line.

SCHEMA = ["CREATE TABLE log(n INTEGER, part INTEGER, filler BLOB);", "CREATE TABLE last(n INTEGER);", "INSERT INTO last VALUES(0);",
          "CREATE TABLE side(n INTEGER PRIMARY KEY, filler BLOB);"]
KEPT = 40


def transaction(n):
    return (f"BEGIN; INSERT INTO log SELECT {n}, value, randomblob(900) FROM (SELECT 1 AS value UNION SELECT 2 UNION SELECT 3);"
            f" UPDATE last SET n = {n}; REPLACE INTO side VALUES({n % 7}, randomblob(2500)); DELETE FROM log WHERE n <= {n - KEPT};"
            f" UPDATE side SET n = n WHERE n = {n % 7}; COMMIT; SELECT 'kept {n}';")


def child_of(pid):
    """The process that a process started, as soon as there is one."""
    until = time.time() + 20
    while time.time() < until:
        try:
            with open(f"/proc/{pid}/task/{pid}/children", encoding="utf-8") as file:
                found = file.read().split()
        except OSError:
            return None
        if found:
            return int(found[0])
        time.sleep(0.001)
    return None


class Killer:
    """Runs transactions, and kills the store within one of them, or at each fifth time the shell."""

    def __init__(self, folder, image, mode):
        self.folder, self.image, self.mode = folder, image, mode
        self.chance, self.each, self.count = random.Random(mode), 0.02, 0

    def start(self, first):
        lines = [*opened(self.folder, self.image), *pragmas(self.mode), "SELECT 'kept 0';", *(transaction(n) for n in range(first, first + 300))]
        with open(f"{self.folder}/kill.sql", "w", encoding="utf-8") as file:
            file.write("\n".join(lines) + "\n")
        with open(f"{self.folder}/kill.sql", encoding="utf-8") as source:
            return subprocess.Popen(["stdbuf", "-oL", "sqlite3", "-bail", "-batch"], stdin=source, stdout=subprocess.PIPE, stderr=subprocess.STDOUT, text=True)

    def kill(self, first):
        """The last transaction that was acknowledged, and whether the kill came before the end."""
        job = self.start(first)
        pid, moments, lines, wanted = child_of(job.pid), [], [], self.chance.randrange(7)
        self.count += 1
        is_shell = self.count % 5 == 0
        for line in job.stdout:
            lines.append(line.strip())
            moments += [time.time()] if line.startswith("kept") else []
            if len(moments) > wanted:
                break
        if len(moments) > 1:
            self.each = (moments[-1] - moments[0]) / (len(moments) - 1)
        time.sleep(self.chance.random() * 1.5 * self.each)
        if pid and job.poll() is None:
            os.kill(job.pid if is_shell else pid, signal.SIGKILL)
        lines += [it.strip() for it in job.stdout]
        killed = -job.wait() == signal.SIGKILL
        while is_shell and is_there(pid):
            time.sleep(0.001)
        acknowledged = max((int(it[5:]) for it in lines if it.startswith("kept")), default=0)
        return acknowledged, killed if is_shell else "error" in (lines or [""])[-1].lower()


def check_state(folder, image, mode, least, most):
    """What is wrong with a database behind a kill, where these transactions had to be and may be there; and its last one."""
    found = shell([*opened(folder, image), *pragmas(mode)[:-1], "PRAGMA integrity_check;", "SELECT n FROM last;",
                   "SELECT count(*), count(DISTINCT n), max(n), sum(part) FROM log;"])
    found = found[1:] if mode == "WAL" else found
    if len(found) != 3 or found[0] != "ok" or not found[1].isdigit():
        return f"{found}", least
    last = int(found[1])
    count = min(last, KEPT)
    wanted = f"{3 * count}|{count}|{last or ''}|{6 * count or ''}"
    if not least <= last <= most or found[2] != wanted:
        return f"{least} was acknowledged, {last} is there, of {found[2]}", last
    return None, last


def check_kills(folder, format_image, mode, count):
    image, last, wrong = f"{folder}/kill.{mode}.image", 0, []
    format_image(image, (2048, 256, 2048))
    made = shell([*opened(folder, image), *pragmas(mode), *SCHEMA])
    if made != expected(mode):
        return told(f"{mode}: a database to kill", f"it said {made}")
    killer = Killer(folder, image, mode)
    for _ in range(count):
        acknowledged, is_killed = killer.kill(last + 1)
        why, last = check_state(folder, image, mode, max(acknowledged, last), max(acknowledged, last) + 1)
        wrong += [why] if why else []
        wrong += [] if is_killed else ["the shell came to its end"]
    wrong += [f"{last} transactions are too few"] if last < count else []
    told(f"{mode}: {count} kills of the store, {last} transactions", wrong and f"{len(wrong)} wrong, the first: {wrong[0]}")


# A store that refuses now and then: it answers DiskFault or DataFull in the place of a call, which is not made.

PROXY = """#!%s -SE
import random, subprocess, sys
chance, count, refused = random.Random(%r), 0, 0
real = subprocess.Popen([%r, sys.argv[1]], stdin=subprocess.PIPE, stdout=subprocess.PIPE)
def say(line):
    sys.stdout.buffer.write(line)
    sys.stdout.buffer.flush()
def hear(line):
    real.stdin.write(line)
    real.stdin.flush()
    return real.stdout.readline()
say(hear(sys.stdin.buffer.readline()))
for line in sys.stdin.buffer:
    count += 1
    word, refusal = line.split(b'"')[3], %r
    if word in (b"syncWrite", b"syncTruncate") or refusal == b"DiskFault" and word in (b"syncFlush", b"syncClose", b"removeEntry", b"syncRead"):
        if chance.random() < %r:
            refused += 1
            say(b"1.%%d %%s %%s\\n" %% (count, word, refusal))
            continue
    say(b"1.%%d %%s" %% (count, hear(line).partition(b" ")[2]))
real.stdin.close()
for line in real.stdout:
    number, blank, rest = line.partition(b" ")
    say(b"1.%%d %%s" %% (int(number[2:]) + refused, rest))
sys.exit(real.wait())
"""


def write_proxy(folder, seed, refusal, rate):
    with open(f"{folder}/proxy", "w", encoding="utf-8") as file:
        file.write(PROXY % (sys.executable, seed, os.environ["OPFS_SERVE"], refusal, rate))
    os.chmod(f"{folder}/proxy", 0o755)
    return f"{folder}/proxy"


def check_faults(folder, format_image, mode, count):
    """The shell ends at the first call that fails: what was acknowledged is there, and nothing by half."""
    image, last, wrong, met = f"{folder}/fault.{mode}.image", 0, [], 0
    format_image(image, (2048, 256, 2048))
    shell([*opened(folder, image), *pragmas(mode), *SCHEMA])
    for seed in range(count):
        lines = [*opened(folder, image), *pragmas(mode), *(transaction(n) for n in range(last + 1, last + 20))]
        found = shell(lines, OPFS_SERVE=write_proxy(folder, f"{mode}{seed}", b"DiskFault", 0.02))
        acknowledged = max((int(it[5:]) for it in found if it.startswith("kept")), default=last)
        met += any("error" in it.lower() for it in found)
        why, last = check_state(folder, image, mode, acknowledged, acknowledged + 1)
        wrong += [why] if why else []
    wrong += [f"{met} faults were met"] if met < count // 2 else []
    told(f"{mode}: {count} runs over a disk that fails, {last} transactions", wrong and f"{len(wrong)} wrong, the first: {wrong[0]}")


WIDE = ["CREATE TABLE IF NOT EXISTS wide(k INTEGER PRIMARY KEY, a, b);", "CREATE INDEX IF NOT EXISTS by_a ON wide(a);", "CREATE INDEX IF NOT EXISTS by_b ON wide(b);"]
ROUND = ["BEGIN;", "WITH c(n) AS (SELECT 1 UNION ALL SELECT n + 1 FROM c WHERE n < 40) INSERT INTO wide(a, b) SELECT randomblob(300), random() FROM c;",
         "UPDATE wide SET b = random() WHERE k %% 3 = %d;", "DELETE FROM wide WHERE k %% 7 = %d;", "UPDATE wide SET a = randomblob(400) WHERE k %% 5 = %d;", "COMMIT;"]


def check_room(folder, format_image, mode, synced, count):
    """The shell goes on behind refusals for want of room, with a cache of a few pages: the database stays whole."""
    image, wrong, met = f"{folder}/room.{mode}.image", [], 0
    format_image(image, MIDDLE)
    for seed in range(count):
        begin = [*opened(folder, image), *pragmas(mode), f"PRAGMA synchronous={synced};", "PRAGMA cache_size=8;"]
        lines = [it % seed if "%%" in it else it for _ in range(6) for it in ROUND]
        write_proxy(folder, f"{mode}{seed}", b"DataFull 7 9 8", 0.04)
        shell([*begin, *WIDE])
        found = shell([*begin, *lines], bails=False, OPFS_SERVE=f"{folder}/proxy")
        met += any("full" in it for it in found)
        found = shell([*begin[:-2], "PRAGMA integrity_check;"])[len(expected(mode)):]
        wrong += [f"{found}"] if found != ["ok"] else []
    wrong += [f"{met} refusals were met"] if met < count // 2 else []
    told(f"{mode}, synchronous {synced}: {count} runs without room now and then", wrong and f"{len(wrong)} wrong, the first: {wrong[0]}")


def check_speed(folder, format_image, check_record, size):
    """SQLite's own program: it verifies what it reads, and reads the same as over plain files."""
    program, why = speedtest.build(folder)
    if not program:
        return skipped("speedtest1", why)
    image, plain = f"{folder}/speed.image", f"{folder}/plain"
    os.makedirs(plain)
    for mode, more in (("delete", []), ("wal", ["--exclusive"])):
        format_image(image, LARGE if size > 3 else MIDDLE)
        words = ["--size", str(size), "--journal", mode, *more]
        here = speedtest.play(program, ["--vfs", "opfs", *words, "speed.db"], plain, OPFS_IMAGE=image)
        there = speedtest.play(program, [*words, f"{mode}.db"], plain)
        if here[1] and here[1] == there[1]:
            print(f"passed speedtest1 --size {size}, journal {mode}: {here[0]} s, {there[0]} s over plain files", flush=True)
        else:
            told(f"speedtest1 --size {size}, journal {mode}", f"{here}, plain {there}")
        found = shell([*opened(folder, image, "speed.db"), "PRAGMA locking_mode=EXCLUSIVE;", "PRAGMA integrity_check;"])
        told(f"its database, journal {mode}", found != ["exclusive", "ok"] and f"it said {found}")
    if size > 3:
        format_image(image)
        speedtest.play(program, ["--vfs", "opfs", "--size", "3", "speed.db"], plain, OPFS_IMAGE=image, OPFS_RECORD=f"{folder}/speed.record")
        check_record("speedtest1's conversation", f"{folder}/speed.record")


def check(folder, format_image, check_record, is_long):
    if not shutil.which("sqlite3"):
        return skipped("SQLite", "there is no sqlite3 on this machine")
    for mode in MODES:
        check_mode(folder, format_image, mode)
    check_shell(folder, format_image, check_record)
    check_python(folder, format_image)
    check_full(folder, format_image)
    if shutil.which("stdbuf") and os.path.exists(f"/proc/self/task/{os.getpid()}/children"):
        for mode in LASTING:
            check_kills(folder, format_image, mode, 200 if is_long else 6)
        for mode in LASTING:
            check_faults(folder, format_image, mode, 40 if is_long else 4)
            check_room(folder, format_image, mode, "FULL" if mode in ("DELETE", "WAL") else "OFF", 40 if is_long else 2)
    else:
        skipped("kills", "this machine lacks stdbuf, or does not tell a process's children")
    check_speed(folder, format_image, check_record, 25 if is_long else 3)
