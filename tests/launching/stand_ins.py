"""A copy of the repository's top with small crates, and what stands there for the toolchain and other programs."""
import os
import pathlib
import shutil
import subprocess
import sys
import time

TOP = pathlib.Path(__file__).resolve().parents[2]
CRATES = "low: simdutf8\nother:\nmiddle: low other # both\nmvtgate: middle clap\nbeside: low\nffi staticlib: middle json\n"
BUILT = ["low", "other", "middle", "mvtgate"]
# A stand-in for `rt`. To try, it does what the file `notes.try` says. By `rt ci` it leaves libraries without a stamp.
RT = """#!/usr/bin/env bash
set -eu
case $1 in
version) exec echo a toolchain ;;
doc) exec echo "$KIT/START" ;;
ci)
    for it in low other middle; do
        mkdir -p "crates/$it/out/rlib/$it.rlib"
        echo "$it by the gate" >"crates/$it/out/rlib/$it.rlib/made_of"
    done
    exit ;;
esac
crate=${PWD##*/}
shift 2
. "$NOTES.try"
"""
# One for the program that proves and builds a crate. It notes when it begins and ends, and in `notes.jobs` by how many processors. In
# `low` and `other` it waits until the other has begun too, at most two seconds. Where there is a source `slow` it keeps something and
# goes on for half a minute, unless it was kept already; `wrong` makes it fail. It waits as long as there is a file `notes.held`.
RATTLE = """#!/usr/bin/env bash
set -eu
shopt -s nullglob
[ "$1 $2" = "build --crate-name" ]
crate=$3 made=${@: -1}
for it in "$@"; do
    [[ $it != *="${PWD%/*}"/*.rlib ]] || [ -f "${it#*=}/made_of" ]
done
echo "begin $crate $$" >>"$NOTES"
words=$*
words=${words#* --jobs }
echo "$crate ${words%% *}" >>"$NOTES.jobs"
if [ "$crate" = low ] || [ "$crate" = other ]; then
    for _ in {1..200}; do
        [ "$(grep -c 'begin \\(low\\|other\\)' "$NOTES")" = 1 ] || break
        sleep 0.01
    done
fi
if [ -e src/slow ] && [ ! -e out/incremental/kept ]; then
    [[ " $* " != *" --incremental out/incremental "* ]] || { mkdir -p out/incremental && echo >out/incremental/kept; }
    exec sleep 30
fi
while [ -e "$NOTES.held" ]; do sleep 0.01; done
[ ! -e src/wrong ] || { echo "it is wrong"; exit 1; }
case $made in
*.rlib)
    [[ " $* " = *" --statements "* ]]
    mkdir -p "$made"
    cat ../*/out/proved/*/made_of src/lib.rt >made_of
    mv made_of "$made" ;;
*.a) echo 'an archive' >"$made" ;;
*.o) printf '#!/bin/sh\\necho "$(pwd): $*: $(cat)"\\nexit 3\\n' >"$made" ;;
esac
echo "end $crate" >>"$NOTES"
echo what is proved
echo "${SAYS-logic=proved functions=1}"
"""
# One for the program that links.
LINK = """#!/usr/bin/env bash
set -eu
while [ "$1" != -o ]; do shift; done
cp "$3" "$2"
chmod +x "$2"
"""
# One for the programs that make the C library's files.
BINUTILS = """#!/usr/bin/env bash
set -eu
case "${0##*/} $1" in
"ar x") echo >mvtgate_c.o && echo >heap.pic.o ;;
"ar rcsD") cp "$3" "$2" ;;
objcopy*) ;;
*)
    while [ "$1" != -o ]; do shift; done
    echo >"$2" ;;
esac
"""
# One for each script of tests/. Two of them, which .ci/run has side by side, wait where there is a file `notes.held`, and take their
# time to end.
SCRIPT = """#!/usr/bin/env bash
packages=(dash:/bin/sh)
trap 'sleep 0.5; echo "end ${0##*/}" >>"$NOTES"; exit 143' TERM
echo "begin ${0##*/}" >>"$NOTES"
case ${0##*/} in
python | launcher) [ ! -e "$NOTES.held" ] || { sleep 60 & wait; } ;;
esac
"""


class Copy:
    """A copy whose folder has a space in its name and begins with a '-'."""

    def __init__(self, room):
        self.room, self.top, self.notes = pathlib.Path(room), pathlib.Path(room, "-a copy"), pathlib.Path(room, "notes")
        self.top.mkdir()
        for it in ("mvtgate", "try", "tools/prove", "tools/crates.py", "tools/current.sh", "tools/proved.py", "tools/rattle.py", ".ci/gate"):
            (self.top / it).parent.mkdir(exist_ok=True)
            shutil.copy2(TOP / it, self.top / it)
        (self.top / "crates.txt").write_text(CRATES)
        for crate in [*BUILT, "beside", "ffi"]:
            for part in ("src", "specs", "proofs/deep"):
                (self.top / "crates" / crate / part).mkdir(parents=True)
            self.source(crate, "src/lib.rt").write_text(crate)
            if crate == "mvtgate":
                self.source(crate, "src/main.rt").write_text(crate)
            self.source(crate, "specs/Lib.antt").write_text("")
            self.source(crate, "proofs/deep/Proof.antt").write_text("")
        (self.room / "kit/bin").mkdir(parents=True)
        for it, text in (("rt", RT), ("kit/bin/rattle", RATTLE), ("kit/bin/rattle-link", LINK)):
            (self.room / it).write_text(text)
            (self.room / it).chmod(0o755)
        # (a version manager's own python3 starts slowly)
        (self.room / "python3").symlink_to(sys.executable)
        self.environment = {**os.environ, "PATH": f"{room}:{os.environ['PATH']}", "NOTES": str(self.notes)}
        self.environment["KIT"] = str(self.room / "kit")

    def source(self, crate, name):
        return self.top / "crates" / crate / name

    def start(self, words=("a b", "c"), program=None, folder=None, stdin=subprocess.PIPE, **how):
        words, end = [program or self.top / "mvtgate", *words], subprocess.PIPE
        return subprocess.Popen(words, cwd=folder, env=self.environment, stdin=stdin, stdout=end, stderr=end, text=True, **how)

    def call(self, *words, **named):
        """The status of a call, what it wrote, the lines that it said, and the crates that were begun in it."""
        self.notes.write_text("")
        started = self.start(*words, **named)
        line, error = started.communicate("input", timeout=300)
        return started.returncode, line, error.splitlines(), self.noted("begin")

    def noted(self, what):
        return [it.split()[1] for it in self.notes.read_text().splitlines() if it.startswith(what)]


def wait_for_the_clock(copy, crate="mvtgate", built="mvtgate"):
    """Until a file that is written now is newer than all that the last call left. (What is written within a tick isn't.)"""
    probe, left = copy.room / "probe", [copy.source(crate, it) for it in (f"out/{built}", "out/sources")]
    probe.write_text("")
    while probe.stat().st_mtime_ns <= max(it.stat().st_mtime_ns for it in left):
        time.sleep(0.002)
        probe.write_text("")


def by_link(copy, name="mvtgate"):
    link = copy.room / "folder" / "gate"
    link.parent.mkdir(exist_ok=True)
    if not link.is_symlink():
        link.symlink_to(f"../-a copy/{name}")
    copy.environment["PATH"] = f"{link.parent}:{copy.environment['PATH']}"
    # (found in the folder of the path)
    return {"program": shutil.which("gate", path=copy.environment["PATH"]), "folder": copy.room}
