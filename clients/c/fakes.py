"""Children that die or answer otherwise than a store can: what the calls say of them, and that none is left behind."""
import os, random, signal, subprocess, sys, time
from telling import told

READY, MADE = "ready 1", "1.1 getDirectory ok"
LONG = "sys.stdout.write('1.1 getDirectory ok' + 'x' * (1 << 20)); sys.stdout.flush(); sys.stdin.read()"
# What is told to each line that is heard, or a statement behind `!`; and the results: of an open, of two calls, of the close.
FAKES = {
    "ends at once": ([], "NotStarted NotStarted NotStarted NotStarted"),
    "refuses the image": (["opfs: image refused: Short"], "NotStarted NotStarted NotStarted NotStarted"),
    "has other agents": (["ready 2"], "Odd Odd Odd Odd"),
    "ends behind its first answer": ([READY], "ok Gone Gone Gone"),
    "is killed in a call": ([READY, "!os.kill(os.getpid(), 9)"], "ok Gone Gone Gone"),
    "ends in mid-line": ([READY, "!sys.stdout.write('1.1 getDir'); sys.stdout.flush(); sys.exit()"], "ok Gone Gone Gone"),
    "closes its output and lives on": ([READY, "!os.close(1); time.sleep(1000)"], "ok Gone Gone Gone"),
    "tells a line without an end": ([READY, f"!{LONG}"], "ok Odd Odd Odd"),
    "answers for another agent": ([READY, "2.1 getDirectory ok"], "ok Odd Odd Odd"),
    "answers another call": ([READY, "1.2 getDirectory ok"], "ok Odd Odd Odd"),
    "answers another word": ([READY, "1.1 getFileHandle ok"], "ok Odd Odd Odd"),
    "answers more": ([READY, "1.1 getDirectory ok 7"], "ok Odd Odd Odd"),
    "answers nothing": ([READY, ""], "ok Odd Odd Odd"),
    "answers with zeros": ([READY, "\\0\\0\\0"], "ok Odd Odd Odd"),
    "has a refusal of its own": ([READY, "1.1 getDirectory Refused"], "ok Odd Odd Odd"),
    "refuses without what it carries": ([READY, "1.1 getDirectory QuotaExceededError 1 2"], "ok Odd Odd Odd"),
    "refuses with more": ([READY, "1.1 getDirectory NotFoundError 1"], "ok Odd Odd Odd"),
    "has a lock of its own": ([READY, "1.1 getDirectory NoModificationAllowedError shut 1"], "ok Odd Odd Odd"),
    "has a number with zeros in front": ([READY, "1.1 getDirectory MetaFull 01 2 3"], "ok Odd Odd Odd"),
    "refuses in each way": ([READY, "1.1 getDirectory DiskFault", "1.2 getDirectory MetaFull 1 2 3", "1.3 end ok"], "ok DiskFault MetaFull ok"),
    "refuses a line": ([READY, "? TooMany", MADE, "1.2 end ok"], "ok TooMany ok ok"),
    "refuses a line otherwise": ([READY, "? Nonsense"], "ok Odd Odd Odd"),
    "clears room": ([READY, "evict https://b.example\\n" + MADE, "1.2 getDirectory ok", "1.3 end ok"], "ok ok ok ok"),
    "ends otherwise": ([READY, MADE, "1.2 getDirectory ok", "1.4 end ok"], "ok ok ok Odd"),
    "ends without its agent": ([READY, MADE, "1.2 getDirectory ok"], "ok ok ok Odd"),
    "ends with a fault": ([READY, MADE, "1.2 getDirectory ok", "!print('1.3 end ok\\nopfs: host fault'); sys.exit(4)"], "ok ok ok Gone"),
}
HEAD = f"#!{sys.executable} -SE\nimport os, sys, time\nopen(sys.argv[1] + '.pid', 'w').write(str(os.getpid()))\n"


def write_fake(path, answers):
    parts = [HEAD]
    for answer in answers:
        done = answer[1:] if answer.startswith("!") else f"print({chr(34)}{answer}{chr(34)}, flush=True)"
        parts.append(f"sys.stdin.readline()\n{done}\n")
    with open(path, "w", encoding="utf-8") as file:
        file.write("".join(parts))
    os.chmod(path, 0o755)


def is_there(pid):
    try:
        with open(f"/proc/{pid}/stat", encoding="utf-8") as file:
            return file.read().rpartition(")")[2].split()[0] != "Z"
    except OSError:
        return False


def play(folder, serve):
    """The results of the calls, where no child is left behind them."""
    env = {**os.environ, "OPFS_SERVE": serve}
    try:
        done = subprocess.run([f"{folder}/calls", "few", f"{folder}/fake"], env=env, capture_output=True, text=True, timeout=60, errors="replace")
    except subprocess.TimeoutExpired:
        return "no end"
    found = " ".join(it for it in done.stdout.splitlines() if not it.startswith("told "))
    if os.path.exists(f"{folder}/fake.pid"):
        with open(f"{folder}/fake.pid", encoding="utf-8") as file:
            found += " and a child is left" if is_there(file.read()) else ""
    return f"{found} status {done.returncode}" if done.returncode else found


def check_client_killed(folder):
    """A client that is killed: its child hears no more lines, and ends."""
    write_fake(f"{folder}/serve", [READY, "!time.sleep(0.5); sys.stderr = open(os.devnull, 'w')", MADE])
    job = subprocess.Popen([f"{folder}/calls", "few", f"{folder}/fake"], env={**os.environ, "OPFS_SERVE": f"{folder}/serve"}, stdout=subprocess.DEVNULL)
    while job.poll() is None and not os.path.exists(f"{folder}/fake.pid"):
        time.sleep(0.02)
    time.sleep(0.2)
    job.send_signal(signal.SIGKILL)
    job.wait()
    with open(f"{folder}/fake.pid", encoding="utf-8") as file:
        pid = file.read()
    until = time.time() + 20
    while is_there(pid) and time.time() < until:
        time.sleep(0.02)
    told("a client that is killed leaves no child", is_there(pid) and f"process {pid} is there")


def check_noise(folder, count=30):
    """Lines with a few bytes altered: each call has one of the results, and the client ends."""
    chance, wrong = random.Random(5), set()
    refusals = ["QuotaExceededError 1 2 3", "NoModificationAllowedError open 0"]
    lines = [MADE, "evict https://b.example", "? BadShape 1 1", *(f"1.1 getDirectory {it}" for it in refusals)]
    for _ in range(count):
        line = list(chance.choice(lines))
        for _ in range(chance.randrange(1, 4)):
            line[chance.randrange(len(line))] = chance.choice("\\0 .129?oknE\\\\")[-1]
        write_fake(f"{folder}/serve", [READY, "".join(line).replace("\\", "\\\\").replace('"', "")])
        found = play(folder, f"{folder}/serve")
        if "status" in found or "left" in found or "no end" in found or "unknown" in found:
            wrong.add(found)
    told(f"{count} children whose line was altered", wrong and f"{wrong}")


def check(folder):
    for what, (answers, wanted) in FAKES.items():
        write_fake(f"{folder}/serve", answers)
        found = play(folder, f"{folder}/serve")
        told(f"a child that {what}", found != wanted and f"{found}, not {wanted}")
    os.unlink(f"{folder}/fake.pid")
    found = play(folder, f"{folder}/none")
    told("a child that is not there", found != "NotStarted NotStarted NotStarted NotStarted" and found)
    check_client_killed(folder)
    check_noise(folder)
