"""Jobs: the same list as by single calls, the tapes of a list run again, and any tape run by the command."""
import itertools
import math
import os
import random
import sqlite3
import struct

import corridors
from common import content, point, rows, run, told
from nearest import edge_file, filled, shape, shapes_file, strewn


def tests(t):
    import dig.build
    import viskorrel
    viskorrel.load(dig.build.library())
    lists(t)
    again(t, viskorrel)
    several(t, viskorrel)
    too_many(t)
    same_faults(t)
    left_alone(t)
    command(t, viskorrel)


def lists(t):
    """Whole lists, with jobs and without."""
    for name, path, more in [
            ("demo", t.whole, []), ("corridor", corridors.make(t.path(), 40, 10, 600), []), ("strewn", strewn(t), ["--tolerance", "5"]),
            ("all within", strewn(t), ["--tolerance", "500"]), ("tolerance 0", strewn(t), ["--tolerance", "0"]), ("near the tolerance", edge_file(t), []),
            ("lines and faces", shapes_file(t), ["--tolerance", "3"]), ("along y", along_y(t), []), ("a long line", long_line(t), ["--tolerance", "2"]),
            ("nothing struck off", t.changed(("DELETE FROM struck_off",)), []), ("no dents", t.changed(("DELETE FROM dents",)), [])]:
        done = [run(path, "--csv", f"{path}.{n}.csv", *more, *words) for n, words in enumerate(([], ["--single-calls"], ["--single-calls", "--no-box-test"]))]
        made = [[line for line in each.stdout.splitlines() if not line.startswith("made")] for each in done]
        t.check(f"the same list by jobs and by single calls: {name}", [each.returncode for each in done] == [0, 0, 0] and made[0] == made[1] == made[2]
                and done[0].stderr.replace(".0.csv", ".1.csv") == done[1].stderr, "".join(map(told, done)))
        tables = [[{name: cell for name, cell in row.items() if name != "made"} for row in rows(f"{path}.{n}.csv")] for n in range(3)]
        t.check(f"and the same CSV: {name}", tables[0] == tables[1] == tables[2])


def along_y(t):
    random.seed(7)
    dents = [(500000.0, 5600000.0 + n, -2.0) for n in range(300)]
    return filled(t, [point(*dent) for dent in dents], [point(x, y + random.uniform(-0.5, 0.5), z) for x, y, z in dents])


def long_line(t):
    random.seed(8)
    dents = [point(float(n), random.uniform(-4, 4), 0.0) for n in range(200)]
    return filled(t, dents, [shape(2, [(0.0, 0.0, 0.0), (200.0, 0.0, 0.0)]), *[point(float(n), 3.0, 0.0) for n in range(0, 200, 3)]])


def places(path, table):
    rows_of = sqlite3.connect(path).execute(f"SELECT geom FROM {table} ORDER BY fid").fetchall()
    return [struct.unpack_from("<3d", blob, 13) for blob, in rows_of]


def within(path, tolerance):
    """The distances of all pairs of points within the tolerance, by Python."""
    found = []
    for (x, y, z), (a, b, c) in itertools.product(places(path, "dents"), places(path, "struck_off")):
        distance = math.sqrt((x - a) ** 2 + (y - b) ** 2 + (z - c) ** 2)
        if distance <= tolerance:
            found.append(distance)
    return sorted(found)


def printed(done):
    """The hits that the command printed, of all tapes."""
    found = [line.split() for line in done.stdout.splitlines() if line.count("0x") == 1]
    assert all(float(decimal) == float.fromhex(other) for _, _, decimal, other in found)
    return [(int(first), int(second), float(decimal)) for first, second, decimal, _ in found]


def again(t, viskorrel):
    tape = t.path(".tape")
    made = run(t.whole, "--tape", tape)
    done = run("job", tape)
    hits = printed(done)
    t.check("the tape of the demo's list", made.returncode == 0 == done.returncode and f"Written: {tape}\n" in made.stderr
            and [distance for _, _, distance in hits] == within(t.whole, 0.25) and len(hits) == 4, told(made) + told(done))
    t.check("again, bit for bit", run("job", tape).stdout == done.stdout)
    t.check("and of the same list made again", run(t.whole, "--tape", tape).returncode == 0 and run("job", tape).stdout == done.stdout)
    t.check("the same by Python", sorted(hits) == sorted(viskorrel.job(content(tape))))
    t.check("by rising distance", [hit[2] for hit in hits] == sorted(hit[2] for hit in hits))
    for words in (["--rule", "2"], ["--single-calls"]):
        done = run(t.whole, "--tape", tape, *words)
        t.check(f"a job goes by rule 1: {words}", done.returncode == 2 and "rule 1" in done.stderr and not os.path.exists(tape), told(done))
        os.replace(tape + ".earlier", tape)


def numbered(tape, number):
    return tape.replace(".tape", f"-{number}.tape")


def several(t, viskorrel):
    """More numbers than one tape can name."""
    path, tape = strewn(t), t.path(".tape")
    run(path, "--tape", tape, "--tolerance", "20")
    files = [tape, *(file for file in (numbered(tape, n) for n in range(2, 99)) if os.path.exists(file))]
    done = run("job", *files)
    distances = sorted(distance for _, _, distance in printed(done))
    t.check("several tapes", len(files) > 2 and distances == within(path, 20.0) and len(distances) > 300, f"{files} {len(distances)} {told(done)[:300]}")
    t.check("each is told by its name", all(f"{file}:\n" in done.stdout for file in files))
    run(t.whole, "--tape", tape)
    t.check("tapes of an earlier run are gone", os.path.exists(tape) and not any(os.path.exists(file) for file in files[1:])
            and len(printed(run("job", tape))) == 4)
    other = t.path(".tape")
    with open(numbered(other, 2), "w") as file:
        file.write("mine")
    done = run(path, "--tape", other, "--tolerance", "20")
    t.check("a file that is no tape of an earlier run is left alone", done.returncode == 1 and content(numbered(other, 2)) == b"mine"
            and not os.path.exists(other), told(done))
    many = filled(t, [point(0, 0, 0)], [point(n / 1000, 0, 0) for n in range(700)])
    run(many, "--tape", tape, "--tolerance", "1")
    done = run("job", tape, numbered(tape, 2), numbered(tape, 3))
    t.check("one dent with 700 near it", sorted(hit[2] for hit in printed(done)) == within(many, 1.0) and not os.path.exists(numbered(tape, 4)), told(done)[:300])


def too_many(t):
    """More pairs within reach than are written down: the same list, by single calls, and no tape."""
    random.seed(9)
    path = filled(t, *[[point(*(random.uniform(-50, 50) for _ in range(3))) for _ in range(count)] for count in (1100, 1000)])
    done = [run(path, "--tolerance", "500", *words) for words in ([], ["--single-calls"], ["--tape", t.path(".tape")])]
    made = [[line for line in each.stdout.splitlines() if not line.startswith("made")] for each in done]
    t.check("too many pairs for a tape", [each.returncode for each in done] == [0, 0, 1] and made[0] == made[1] and "too many pairs" in done[2].stderr
            and made[2] == [], "".join(told(each)[-300:] for each in done))


def same_faults(t):
    """A pair without a finite distance stops the list, whatever jobs say of other pairs."""
    far, flat = point(1e300, 0, 0), shape(3, [(0.0, 0.0, 0.0), (1.0, 0.0, 0.0)])
    for name, changes in [
            ("a dent too far", [("UPDATE dents SET geom = ? WHERE fid = 5", far)]),
            ("a struck-off dent too far", [("UPDATE struck_off SET geom = ? WHERE fid = 2", far)]),
            ("both", [("UPDATE dents SET geom = ? WHERE fid = 5", far), ("UPDATE struck_off SET geom = ? WHERE fid = 2", far)]),
            ("a face of two vertices struck off", [("UPDATE struck_off SET geom = ? WHERE fid = 3", flat)]),
            ("a face of two vertices", [("UPDATE dents SET geom = ? WHERE fid = 1", flat)])]:
        path = t.changed(*changes)
        for more in ([], ["--tolerance", "1000"], ["--tolerance", "0"]):
            by_jobs, by_calls = run(path, *more), run(path, "--single-calls", *more)
            t.check(f"the same faults by jobs and by single calls: {name}, {more}", by_jobs.returncode == 1 == by_calls.returncode
                    and by_jobs.stderr == by_calls.stderr and "error: " in by_jobs.stderr and by_jobs.stdout == "", told(by_jobs) + told(by_calls))


def left_alone(t):
    """No list, no tape; and what an earlier run wrote does not look current."""
    tape, bad = t.path(".tape"), t.changed(("UPDATE dents SET geom = x'4750' WHERE fid = 2",))
    run(t.whole, "--tape", tape)
    before = content(tape)
    done = run(bad, "--tape", tape)
    t.check("no list, no tape", done.returncode == 1 and not os.path.exists(tape) and content(tape + ".earlier") == before, told(done))
    done = run(t.whole, "--tape", t.whole)
    t.check("the file itself is no tape", done.returncode == 1 and "an output must be a file of its own" in done.stderr, told(done))


def command(t, viskorrel):
    def tape(name, content_):
        path = t.path(f".{name}")
        with open(path, "wb") as file:
            file.write(bytes(content_))
        return path
    at = [struct.pack("<BI3d", 1, 1001, x, 0.0, 0.0) for x in (0.0, 3.0, 0.1)]
    whole = bytes(viskorrel.Tape().load(7, at[0]).load(9, at[1]).load(200, at[2]).tolerance(3).pair(9, 7).pair(7, 9).pair(7, 200).pair(7, 9).end())
    done = run("job", tape("good", whole))
    t.check("hits in the order of the command", done.stdout.splitlines() == [
        "first  second  distance  hexadecimal", "    7     200  0.1       0x1.999999999999ap-4", "    7       9  3.0       0x1.8000000000000p+1",
        "    7       9  3.0       0x1.8000000000000p+1", "    9       7  3.0       0x1.8000000000000p+1", "4 hits"] and done.stderr == "", told(done))
    t.check("bytes behind the end are ignored", run("job", tape("more", whole + b"\0garbage")).stdout == done.stdout)
    t.check("no hits", run("job", tape("none", b"\4")).stdout == "0 hits\n")
    for name, content_, words in [
            ("empty", b"", "refusal 20: job: a command is unknown, or the tape ends before 04 or inside a command"),
            ("cut", whole[:-1], "refusal 20: job: a command is unknown, or the tape ends before 04 or inside a command"),
            ("not-loaded", b"\3\1\2\4", "refusal 21: job: a number is matched that is not loaded"),
            ("below", viskorrel.Tape().load(1, at[0]).tolerance(-1).pair(1, 1).end(), "refusal 1: d is below 0"),
            ("first", viskorrel.Tape().load(1, b"GP").load(2, at[0]).pair(1, 2).end(),
             'a match, its first number: refusal 3: the blob starts with "GP" and has under 8 bytes'),
            ("second", viskorrel.Tape().load(1, b"GP").load(2, at[0]).pair(2, 1).end(),
             'a match, its second number: refusal 3: the blob starts with "GP" and has under 8 bytes')]:
        path = tape(name, content_)
        done = run("job", path)
        t.check(f"refused in words: {name}", (done.returncode, done.stdout, done.stderr) == (1, "", f"error: {path}: {words}\nNo hits.\n"), told(done))
    done = run("job", tape("good", whole), path)
    t.check("one of two is refused: no hits", done.returncode == 1 and done.stdout == "", told(done))
    done = run("job", t.path(".missing"))
    t.check("no such tape", done.returncode == 1 and "No such file" in done.stderr and "Traceback" not in done.stderr, told(done))
    t.check("help", run("job", "--help").returncode == 0 and "TAPE" in run("--help").stdout and run("job").returncode == 2)
