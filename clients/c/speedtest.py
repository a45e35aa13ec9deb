"""SQLite's speedtest1 from Debian's source of sqlite3, built with the VFS beside this file and Debian's libsqlite3. Nothing of it is kept."""
import glob, os, re, subprocess

HERE = os.path.dirname(os.path.realpath(__file__))
SOURCES = """Types: deb-src
URIs: http://deb.debian.org/debian
Suites: bookworm
Components: main
Signed-By: /usr/share/keyrings/debian-archive-keyring.gpg
"""


def run(words, folder):
    try:
        done = subprocess.run(words, cwd=folder, stdin=subprocess.DEVNULL, capture_output=True, text=True, timeout=300)
        return done.stderr.strip().rpartition("\n")[2] or f"status {done.returncode}" if done.returncode else None
    except (OSError, subprocess.TimeoutExpired) as error:
        return str(error)


def fetch(folder):
    """Gets the source by apt, with lists of its own: the path of speedtest1.c, or None and why not."""
    at = os.path.join(folder, "source")
    os.makedirs(f"{at}/lists/partial")
    with open(f"{at}/debian.sources", "w", encoding="utf-8") as file:
        file.write(SOURCES)
    own = ["-o", f"Dir::Etc::sourcelist={at}/debian.sources", "-o", "Dir::Etc::sourceparts=/dev/null", "-o", f"Dir::State::lists={at}/lists"]
    own += ["-o", "APT::Sandbox::User="]
    why = run(["apt-get", *own, "update"], at) or run(["apt-get", *own, "source", "--download-only", "sqlite3"], at)
    packed = glob.glob(f"{at}/sqlite3_*.orig.tar.*")
    if why or not packed:
        return None, why or "no source was there"
    why = run(["tar", "xf", packed[0], "--strip-components=2", "--wildcards", "*/test/speedtest1.c"], at)
    return (f"{at}/speedtest1.c", None) if not why and os.path.exists(f"{at}/speedtest1.c") else (None, why or "speedtest1.c is not in it")


def build(folder):
    """The path of the program, or None and why not. SPEEDTEST1 of the environment may have the path of speedtest1.c."""
    source, why = os.environ.get("SPEEDTEST1"), None
    if not source:
        source, why = fetch(folder)
    if source:
        why = run(["make", "-s", "-C", HERE, f"BUILD={folder}/speedtest", f"SPEEDTEST1={source}", f"{folder}/speedtest/speedtest1"], folder)
    return (None, why) if why else (f"{folder}/speedtest/speedtest1", None)


def play(program, words, folder, **more):
    """Runs it: seconds, the hash of what it verified, and its text."""
    env = {**os.environ, **{key: value for key, value in more.items() if value}}
    done = subprocess.run([program, "--verify", *words], cwd=folder, env=env, stdin=subprocess.DEVNULL, capture_output=True, text=True)
    told = done.stdout + done.stderr
    seconds, digest = re.search(r"TOTAL\.* +([\d.]+)s", told), re.search(r"Verification Hash: (.*)", told)
    return (float(seconds[1]), digest and digest[1], told) if seconds and not done.returncode else (None, None, told)
