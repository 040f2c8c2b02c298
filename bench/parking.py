#!/usr/bin/env python3
"""Parks, fetches and drops sessions with the built program, and looks at its file with sqlite3, Python's.

    bench/parking.py PROGRAM [PART..]

Parts, all where none is named:
  kills      300 times a park that is killed at a random moment: the file is sound, each row that was told as parked has its bytes, none is half
  together   two and eight processes that park, fetch and drop at once, 200 calls each: each answers a status of the table, nothing told is lost
  faults     a file that is no database, a directory in its place, a read-only folder, a full disk, a file that sqlite3 made: what is answered, and that
             nothing is lost (a full disk wants root, for a small tmpfs)
  costs      the time of park and fetch with 1, 100 and 10,000 rows there, and of the largest page

It prints a line for each, and ends with 1 where anything was not as it should be.
"""
import collections
import os
import random
import shutil
import signal
import sqlite3
import subprocess
import sys
import tempfile
import threading
import time

sys.dont_write_bytecode = True
sys.path.insert(0, os.path.join(os.path.dirname(os.path.dirname(os.path.abspath(__file__))), "tools"))
import command_words

FILE = "imagen.db"
TABLE = ("CREATE TABLE kept(name TEXT NOT NULL, version INTEGER NOT NULL, size INTEGER NOT NULL, bytes BLOB NOT NULL, "
         "PRIMARY KEY(name, version)) STRICT")
# The exit statuses of a command that keeps sessions.
OK, WRITE_FAULT, NO_MEMORY, KEEPER_FAULT, NO_SESSION = 0, 5, 7, 8, 9
PAGE = '<html><body></body><script>"use strict";var n=0;function t(){n=n+1;console.log(n);}%s</script></html>'
WRONG = []


def tell(part, what, good=True):
    print(f"{part}: {what}{'' if good else '   WRONG'}", flush=True)
    if not good:
        WRONG.append(what)


def write(folder, name, text):
    with open(f"{folder}/{name}", "w", encoding="ascii") as file:
        file.write(text)


def run(folder, *words, **named):
    return subprocess.run([PROGRAM, *words], cwd=folder, capture_output=True, **named)


def rows(folder):
    """The rows that sqlite3 reads of a copy, so that its own checkpoint does not touch the file."""
    with tempfile.TemporaryDirectory() as copy:
        for name in os.listdir(folder):
            if name.startswith(FILE):
                shutil.copy(f"{folder}/{name}", copy)
        db = sqlite3.connect(f"{copy}/{FILE}")
        try:
            sound = db.execute("pragma integrity_check").fetchall() == [("ok",)]
            tables = db.execute("select name from sqlite_schema where name = 'kept'").fetchall()
            found = db.execute("select name, version, size, bytes from kept").fetchall() if tables else []
        finally:
            db.close()
    return sound, {(name, version): (size, data) for name, version, size, data in found}


def folder_with_page(folder, more=""):
    write(folder, "p", PAGE % more)
    write(folder, "e", '[{"call":"t"}]')
    saved = run(folder, "save", "p", "e")
    if saved.returncode != OK:
        sys.exit(f"save ended with {saved.returncode}: {saved.stderr}")
    return saved.stdout


def kills(folder):
    saved = folder_with_page(folder)
    begun = time.perf_counter()
    run(folder, "park", "p", "e", "warm")
    once = time.perf_counter() - begun
    told, killed = {("warm", 1)}, 0
    for _ in range(300):
        child = subprocess.Popen([PROGRAM, "park", "p", "e", "k"], cwd=folder, stdout=subprocess.PIPE, stderr=subprocess.DEVNULL)
        time.sleep(random.random() * once * 1.2)
        child.send_signal(signal.SIGKILL)
        text = child.communicate()[0].decode()
        killed += child.returncode == -signal.SIGKILL
        if text.endswith("\n"):
            _, name, version = text.split()
            told.add((name, int(version)))
    sound, found = rows(folder)
    tell("kills", f"300 runs, {killed} killed before their end, {len(told) - 1} told as parked, {len(found) - 1} rows")
    tell("kills", "the file is sound for sqlite3", sound)
    tell("kills", "each row that was told is there", told <= found.keys())
    tell("kills", "each row is whole", all(size == len(data) and data == saved for size, data in found.values()))
    after = run(folder, "parked")
    tell("kills", "the program lists what sqlite3 finds", after.stdout.decode().count("\n") == len(found))


def together(folder):
    for count in (2, 8):
        home = f"{folder}/{count}"
        os.mkdir(home)
        saved = folder_with_page(home)
        statuses, kept, guard = collections.Counter(), {}, threading.Lock()

        def work(number):
            mine, name, chance = [], f"s{number}", random.Random(number)
            for _ in range(200):
                which = chance.randrange(3) if mine else 0
                words = [("park", "p", "e", name), ("fetch", name, None), ("drop", name, None)][which]
                version = chance.choice(mine) if which else None
                done = run(home, *[str(version) if word is None else word for word in words])
                with guard:
                    statuses[done.returncode] += 1
                if done.returncode == OK and which == 0:
                    mine.append(int(done.stdout.split()[2]))
                elif done.returncode == OK and which == 1 and done.stdout != saved:
                    WRONG.append(f"fetch {name} {version} gave other bytes")
                elif done.returncode == OK and which == 2:
                    mine.remove(version)
            with guard:
                kept[name] = mine

        threads = [threading.Thread(target=work, args=(number,)) for number in range(count)]
        for thread in threads:
            thread.start()
        for thread in threads:
            thread.join()
        sound, found = rows(home)
        wanted = {(name, version) for name, mine in kept.items() for version in mine}
        tell("together", f"{count} processes, statuses {dict(sorted(statuses.items()))}", statuses.keys() <= {OK, KEEPER_FAULT})
        tell("together", f"{count} processes: {len(found)} rows, those that were told and not dropped", sound and found.keys() == wanted)
        tell("together", f"{count} processes: each row is whole", all(data == saved for _, data in found.values()))


def is_keeper_fault(done):
    return (done.returncode, done.stdout, done.stderr) == (KEEPER_FAULT, b"", b"keeper fault\n")


def all_fault(home):
    return all(is_keeper_fault(run(home, *words)) for words in (
        ("park", "p", "e", "c"), ("fetch", "c", "1"), ("parked",), ("drop", "c", "1")))


def home_for(folder, name):
    home = f"{folder}/{name}"
    os.mkdir(home)
    return home, folder_with_page(home)


def full_disk(folder):
    home = f"{folder}/full"
    os.mkdir(home)
    if subprocess.run(["mount", "-t", "tmpfs", "-o", "size=256k", "tmpfs", home], stderr=subprocess.DEVNULL).returncode:
        tell("faults", "a full disk: not tried, since no tmpfs can be mounted")
        return
    try:
        saved = folder_with_page(home, f'var s="{"x" * 20000}";')
        statuses = [run(home, "park", "p", "e", "c").returncode for _ in range(20)]
        told = statuses.count(OK)
        sound, found = rows(home)
        tell("faults", f"a full disk: statuses {dict(collections.Counter(statuses))}", KEEPER_FAULT in statuses and set(statuses) <= {OK, KEEPER_FAULT})
        tell("faults", "a full disk: the rows that were told are there, whole", sound and len(found) == told and all(
            data == saved for _, data in found.values()))
    finally:
        subprocess.run(["umount", home], check=True)


def faults(folder):
    home, _ = home_for(folder, "spoiled")
    write(home, FILE, "no database at all\n" * 300)
    with open(f"{home}/{FILE}", "rb") as file:
        before = file.read()
    tell("faults", "a file that is no database", all_fault(home))
    with open(f"{home}/{FILE}", "rb") as file:
        tell("faults", "a file that is no database stays as it is", file.read() == before)
    home, _ = home_for(folder, "folder")
    os.mkdir(f"{home}/{FILE}")
    tell("faults", "a directory in its place", all_fault(home))
    if os.geteuid():
        home, _ = home_for(folder, "closed")
        os.chmod(home, 0o500)
        tell("faults", "a read-only folder", all_fault(home))
        os.chmod(home, 0o700)
    else:
        tell("faults", "a read-only folder: not tried, since root may write it")
    full_disk(folder)
    for name, make in (("bare", "CREATE TABLE other(x)"), ("table", TABLE)):
        home, saved = home_for(folder, name)
        db = sqlite3.connect(f"{home}/{FILE}")
        db.execute(make)
        if make == TABLE:
            db.execute("insert into kept values('c', 7, 1, x'78')")
        db.commit()
        db.close()
        done = run(home, "park", "p", "e", "c")
        _, found = rows(home)
        version = 8 if make == TABLE else 1
        tell("faults", f"a file that sqlite3 made, {name}: parked as {version}", done.stdout == b"parked c %d\n" % version and found["c", version] == (
            len(saved), saved))
    home, _ = home_for(folder, "none")
    for words in (("check", "p"), ("replay", "p", "e"), ("instrument", "p"), ("save", "p", "e"), ("park", "p", "e"), ("fetch", "c", "01")):
        run(home, *words)
    tell("faults", "commands that keep nothing make no file", not os.path.exists(f"{home}/{FILE}"))


def best(folder, *words):
    spent = []
    for _ in range(5):
        begun = time.perf_counter()
        done = run(folder, *words)
        spent.append(time.perf_counter() - begun)
        if done.returncode != OK:
            WRONG.append(f"{words} ended with {done.returncode}")
    return f"{min(spent) * 1e3:.1f} ms"


def costs(folder):
    for count in (1, 100, 10_000):
        home, saved = home_for(folder, f"rows{count}")
        db = sqlite3.connect(f"{home}/{FILE}")
        db.execute(TABLE)
        db.executemany("insert into kept values('old', ?, ?, ?)", [(number + 1, len(saved), saved) for number in range(count)])
        db.commit()
        db.close()
        tell("costs", f"{count} rows there: park {best(home, 'park', 'p', 'e', 'new')}, fetch {best(home, 'fetch', 'old', '1')}, "
             f"parked {best(home, 'parked')}")
    for number in (7_000, 70_000):
        home, saved = home_for(folder, f"page{number}")
        write(home, "p", PAGE % f"var a=[];for(var i=0;i<{number};i++){{a[i]=0;}}")
        text = run(home, "save", "p", "e").stdout
        tell("costs", f"a saved page of {len(text)} bytes: save {best(home, 'save', 'p', 'e')}, park {best(home, 'park', 'p', 'e', 'c')}, "
             f"fetch {best(home, 'fetch', 'c', '1')}")


if __name__ == "__main__":
    PROGRAM = command_words.program(__doc__)
    for part in sys.argv[2:] or ["kills", "together", "faults", "costs"]:
        with tempfile.TemporaryDirectory() as place:
            {"kills": kills, "together": together, "faults": faults, "costs": costs}[part](place)
    sys.exit(1 if WRONG else 0)
