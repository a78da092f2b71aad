"""The cases of tests/launcher about ./try: how it gets its files, leaves a report and gives its status."""
import os
import pathlib
import re
import signal
import subprocess
import time

from stand_ins import TOP, by_link


def ends(status):
    """What the stand-in does where the program writes a line to each end, and ends with this status."""
    lines = [f"checked: ended status={status}", f"run=ended status={status} runners=1 proved=no"]
    return "\n".join(["echo a line", "echo its error >&2", *(f"echo '{it}' >&2" for it in lines), f"exit {status}"])


def tried(copy, script, *words, given="", **how):
    """The status of a try, what it wrote, and the lines that it said, where the stand-in runs a script."""
    pathlib.Path(f"{copy.notes}.try").write_text(script)
    started = copy.start(words, program=copy.top / "try", **how)
    line, error = started.communicate(None if "stdin" in how else given, timeout=300)
    first, *said = error.splitlines()
    assert re.fullmatch(rf"mvtgate: this build isn't proved, .*; {copy.top}/mvtgate proves the program first", first), first
    return started.returncode, line, said


def gives_the_programs_answer(copy):
    for status in range(6):
        # (rt's own statuses of these numbers are something else)
        assert tried(copy, ends(status), "check") == (status, "a line\n", ["its error"])
    assert tried(copy, f"[ $crate = mvtgate ] || exit 9\n{ends(0)}", "check", folder=copy.room)[0] == 0


def tells_that_there_is_no_answer(copy):
    for status in range(1, 7):
        script = f"printf '| %01000000d\\n' 0 >&2\necho it says why >&2\necho run=no-answer proved=no >&2\nexit {status}"
        ended, line, said = tried(copy, script, "check")
        # (what the program wrote before its output was too long)
        assert (ended, line) == (70, "") and said.pop(0) == f"| {'0' * 198}", (ended, said)
        assert said[:2] == ["it says why", "run=no-answer proved=no"], said
        assert re.fullmatch(rf"mvtgate: no answer: .* 60 seconds and 1 MiB .* {copy.top}/mvtgate .*", said[2]), said


# Each word in brackets, or in angles what the file has that it names.
SHOWS = 'for it in "$@"; do [ -f "$it" ] && echo "<$(head -c 20 "$it")>" || echo "[$it]"; done\n' + ends(0)


def shown(copy, *words, **how):
    return tried(copy, SHOWS, *words, folder=copy.room, **how)[1].splitlines()[:-1]


def hands_files_over(copy):
    (copy.room / "feature").write_text("a tile")
    (copy.room / "-b").write_text("a fault")
    absolute = str(copy.room / "feature")
    assert shown(copy, "check", "feature", "--advice") == ["[check]", "<a tile>", "[--advice]"]
    assert shown(copy, "check", "--profile", "feature", "../" * 20 + absolute) == ["[check]", "[--profile]", "[feature]", "<a tile>"]
    assert shown(copy, "confirm", "--", absolute, "-b") == ["[confirm]", "[--]", "<a tile>", "<a fault>"]
    # (what is no file of a call stays, and what doesn't open is nowhere)
    assert shown(copy, "fields", "feature", "feature") == ["[fields]", "<a tile>", "[feature]"]
    _, missing = shown(copy, "check", "stdin")
    assert missing.startswith("[/proc/") and not pathlib.Path(missing[1:-1]).exists(), missing
    assert shown(copy, "dump", ".") == ["[dump]", "[/]"]


def hands_pipes_over(copy):
    reading, writing = os.pipe()
    os.write(writing, b"a fault")
    os.close(writing)
    (copy.room / "tile").write_text("a tile")
    assert shown(copy, "confirm", "tile", f"/dev/fd/{reading}", pass_fds=[reading]) == ["[confirm]", "<a tile>", "<a fault>"]


def hands_standard_input_over(copy):
    assert shown(copy, "check", "--profile", "feature", given="a tile") == ["[check]", "<a tile>", "[--profile]", "[feature]"]
    assert shown(copy, "dump", given="") == ["[dump]", "<>"]
    with open(copy.room / "large", "wb+") as large:
        large.truncate(200_000_000)
        # (a byte more than the program takes, which has to say so)
        script = 'stat --format %s -L "$2"\n' + ends(3)
        assert tried(copy, script, "check", stdin=large)[:2] == (3, "67108865\na line\n")


def waits_for_no_input_that_is_not_read(copy):
    (copy.room / "tile").write_text("a tile")
    for words in (["check", "tile"], ["check", "--help"], ["--version"], ["nothing"], []):
        reading, writing = os.pipe()
        assert tried(copy, ends(0), *words, stdin=reading, folder=copy.room)[0] == 0
        os.close(reading)
        os.close(writing)


def leaves_a_report(copy):
    """What is in the file of a report after a try, where the program told something, or nothing, and where it opens no file."""
    report, tells = copy.room / "a report", '[[ "$*" =~ --report[=\\ ](/proc/[0-9]+/fd/[0-9]+) ]]\necho told >"${BASH_REMATCH[1]}"\n'
    for words in (["mend", "--report", str(report)], ["mend", f"--report={report}"]):
        for script, before, after in (
            (tells + ends(0), "an older one", "told\n"),
            (tells + ends(0), None, "told\n"),
            (ends(1), "an older one", "an older one"),
            (ends(1), None, ""),
            (ends(2), "an older one", "an older one"),
            (ends(2), None, None),
        ):
            report.unlink(missing_ok=True)
            if before is not None:
                report.write_text(before)
            tried(copy, script, *words)
            assert (report.read_text() if report.exists() else None) == after, (words, script, before)
    report.unlink(missing_ok=True)
    for words in (["mend", "--help", "--report", str(report)], ["mend", "--", str(report), f"--report={report}"], ["check", "--report", str(report)]):
        tried(copy, ends(0), *words)
        assert not report.exists(), words
    # (where it doesn't open the program says so, before it writes a tile)
    (copy.room / "a file").write_text("")
    for closed in (copy.room / "nowhere/report", copy.room / "a file/report", copy.room, ""):
        for words in (["--report", str(closed)], [f"--report={closed}"]):
            ended, line, said = tried(copy, 'echo "${*: -1}"\n' + ends(3), "mend", *words)
            assert (ended, said) == (3, ["its error"]) and re.match(r"(--report=)?/proc/\d+/fd/missing\n", line), (closed, ended, line, said)
    # (the same file has the tile and takes the report)
    report.write_text("a tile")
    assert tried(copy, tells + 'cat "$4"\n' + ends(0), "mend", "--report", str(report), str(report))[1] == "a tilea line\n"
    assert report.read_text() == "told\n"


def ends_with_its_rt(copy):
    pathlib.Path(f"{copy.notes}.try").write_text("trap 'echo ended >>\"$NOTES\"; exit 143' TERM\necho began >>\"$NOTES\"\nsleep 30 >/dev/null 2>&1 & wait")
    copy.notes.write_text("")
    started = copy.start(["--help"], program=copy.top / "try")
    while "began" not in copy.notes.read_text():
        time.sleep(0.01)
    started.send_signal(signal.SIGTERM)
    started.communicate(timeout=10)
    assert started.returncode == 143 and copy.notes.read_text() == "began\nended\n", (started.returncode, copy.notes.read_text())


def tells_that_there_is_no_rt(copy):
    (copy.room / "rt").unlink()
    copy.environment["PATH"] = f"{copy.room}:/usr/bin:/bin"
    ended, line, said = tried(copy, "", "--help")
    assert (ended, line) == (70, "") and re.fullmatch("mvtgate: cannot run rt: .*'rt'", said[0]), (ended, said)


def is_tried_by_link(copy):
    pathlib.Path(f"{copy.notes}.try").write_text(ends(5))
    started = copy.start(["--help"], **by_link(copy, "try"))
    assert (started.communicate(timeout=300)[0], started.returncode) == ("a line\n", 5)


def tries_in_a_fresh_clone(copy):
    """A tile that is valid, named through a link, and one that isn't, from standard input, at once, by the real `rt`."""
    clone, temporary = copy.room / "clone", copy.room / "temporary"
    subprocess.run(["git", "clone", "-q", TOP, clone], check=True)
    temporary.mkdir()
    link = copy.room / "link"
    link.symlink_to("clone/try")
    environment = {**os.environ, "TMPDIR": str(temporary)}
    how = {"cwd": clone / "tiles", "env": environment, "stdout": subprocess.PIPE, "stderr": subprocess.PIPE, "text": True}
    valid = subprocess.Popen([link, "check", "--not-empty", "point.mvt"], stdin=subprocess.DEVNULL, **how)
    with open(TOP / "tiles/crossing_edges.mvt") as tile:
        faulty = subprocess.Popen(["../try", "check"], stdin=tile, **how)
    expected = [(valid, 0, '{"ok":true}\n'), (faulty, 1, (TOP / "tiles/expected/crossing_edges.check").read_text())]
    for started, status, line in expected:
        wrote, said = started.communicate(timeout=900)
        assert (started.returncode, wrote) == (status, line), (started.returncode, wrote, said)
        assert said == f"mvtgate: this build isn't proved, and made anew in a minute or so; {clone}/mvtgate proves the program first\n", said
    left = subprocess.run(["git", "-C", clone, "status", "--porcelain", "--ignored"], capture_output=True, text=True, check=True).stdout
    assert left == "" and not list(temporary.iterdir()), (left, list(temporary.iterdir()))


CASES = {
    "a try in a fresh clone": tries_in_a_fresh_clone,
    "a try's answer": gives_the_programs_answer,
    "a try without an answer": tells_that_there_is_no_answer,
    "a try on files": hands_files_over,
    "a try on a pipe": hands_pipes_over,
    "a try on standard input": hands_standard_input_over,
    "a try that reads no input": waits_for_no_input_that_is_not_read,
    "a try that leaves a report": leaves_a_report,
    "a try that is ended": ends_with_its_rt,
    "a try without rt": tells_that_there_is_no_rt,
    "a try by a link": is_tried_by_link,
}
