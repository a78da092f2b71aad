"""Holds the manual pages against what they are about: manual.py faults | statuses PROGRAM | lines PROGRAM | diagnostics PROGRAM |
functions | constants | members | example.

- faults: the codes and titles of mvtgate.1 are those of bindings/faults.json (and tests/rule compares the keys)
- statuses: mvtgate.1 has the exit statuses, and the words of each, that the program's help has
- lines: of each command mvtgate.1 has the keys that the program writes, and the objects of advice
- diagnostics: the program ends with each line that mvtgate.1 has, and with its status
- functions, constants: mvtgate.3 has those of mvtgate.h
- members: mvtgate-planet.1 has those of a line of faults.jsonl that docs/PLANET.md has
- example: writes the first example program of mvtgate.3

The exit status is 1 where something differs, which is printed.
"""
from __future__ import annotations

import json
import pathlib
import re
import subprocess
import sys
import tempfile
from typing import Any, Dict, Iterator, List, Set, Tuple

TOP = pathlib.Path(__file__).resolve().parents[2]
PAGES = TOP / "packaging"
HEADER = (TOP / "bindings/c/mvtgate.h").read_text()


def source(section: int) -> str:
    return (PAGES / f"mvtgate.{section}").read_text()


def shown(section: int) -> str:
    """The page as text, without what a terminal makes bold and underlined, and with one space for any."""
    page = str(PAGES / f"mvtgate.{section}")
    text = subprocess.run(["mandoc", "-T", "utf8", page], check=True, capture_output=True, text=True).stdout
    return " ".join(re.sub(".\b", "", text).split())


def differ(wanted: object, found: object) -> None:
    if wanted != found:
        sys.exit(f"wanted: {wanted}\nfound: {found}")


def faults() -> None:
    titles: Dict[str, str] = {code: it["title"] for code, it in json.loads((TOP / "bindings/faults.json").read_text())["faults"].items()}
    found = re.findall(r"^\.It (\d{3})\n(.*)$", source(1), re.MULTILINE)
    # (some titles have a remark after them)
    differ(titles, {code: titles[code] if text.startswith(titles.get(code, " ")) else text for code, text in found})


def statuses(program: str) -> None:
    said = subprocess.run([program, "--help"], check=True, capture_output=True, text=True).stdout
    listed = re.findall(r"^  (\d)  (.*)$", said[said.index("Exit status:") :], re.MULTILINE)
    differ([str(it) for it in range(6)], [number for number, _ in listed])
    page = shown(1)
    differ([], [it for it in (f"{number} {text}" for number, text in listed) if it not in page])


def item(command: str) -> str:
    """What mvtgate.1 says of the lines of a command."""
    section = source(1).split(".Ss The lines of the other commands\n")[1].split("\n.Ss ")[0]
    found = re.search(rf"(?ms)^\.It Cm {re.escape(command)}$\n(.*?)(?=^\.It Cm |\Z)", section)
    assert found, command
    return found[1]


def keys(value: Any) -> Iterator[str]:
    """All keys in a value."""
    for it in value.values() if isinstance(value, dict) else value if isinstance(value, list) else []:
        yield from keys(it)
    yield from value if isinstance(value, dict) else []


def field(number: int, payload: bytes) -> bytes:
    return bytes([8 * number + 2, len(payload)]) + payload


# Values of each kind (MVT 4.1), in a layer with a point; and fields of each wire type.
VALUES = [field(1, b"a"), b"\x15" + bytes(4), b"\x19" + bytes(8), b"\x20\x01", b"\x28\x01", b"\x30\x01", b"\x38\x01"]
POINT = field(2, b"\x18\x01" + field(4, b"\x09\x32\x22"))
TILE = field(3, b"\x78\x02" + field(1, b"a") + POINT + field(3, b"k") + b"".join(field(4, it) for it in VALUES))
FIELDS = b"\x08\x01\x11" + bytes(8) + b"\x1a\x00\x25" + bytes(4)
# Layers, one without features; of the other two keys and two ids are equal.
LIKENESSES = field(3, b"\x78\x02" + field(1, b"a")), field(3, b"\x78\x02" + field(1, b"b") + 2 * field(3, b"k") + 2 * field(2, b"\x08\x07" + POINT[2:]))


def written(program: str, tile: bytes, *words: str) -> Any:
    """The last line of JSON for a tile: on standard output, or on standard error by `mend`."""
    run = subprocess.run([program, *words], input=tile, check=True, capture_output=True)
    return json.loads((run.stderr if words[0] == "mend" else run.stdout).splitlines()[-1])


def lines(program: str) -> None:
    for command, tile in (("dump", TILE), ("fields", FIELDS)):
        line = written(program, tile, command)
        differ(set(keys(line)) - set(line), set(re.findall(r"^\.(?:Pq )?Ql (\w+)", item(command), re.MULTILINE)))
    changes = [written(program, (TOP / f"tiles/{it}.mvt").read_bytes(), "mend", "--drop")["changed"] for it in ("crossing_edges", "ring_without_area")]
    told: Set[str] = set(keys(changes)) | {it["what"] for its in changes for it in its}
    differ(told, set(re.findall(r"^\.Ql (\w+)", item("mend"), re.MULTILINE)))
    advice = [it for tile in (b"", b"".join(LIKENESSES)) for it in written(program, tile, "check", "--advice")["advice"]]
    # (the manual has all as of layer 0)
    differ([{**it, **({"layer": 0} if "layer" in it else {})} for it in advice], [json.loads(it) for it in re.findall(r"^\.It Li (.*)$", item("check Fl Fl advice"), re.MULTILINE)])


def failing(program: str, room: pathlib.Path) -> Iterator[Tuple[List[Any], Any]]:
    """Calls that end with a line of DIAGNOSTICS, each with its standard output, or None."""
    tile, fault = room / "tile", room / "fault"
    tile.write_bytes(b"")
    fault.write_text('{"code":201,"layer":0}')
    missing, folder = room / "missing", room
    yield [program, "check", b"\xff"], None
    yield [program, "check", missing], None
    yield [program, "confirm", tile, missing], None
    yield [program, "mend", "--report", missing / "report", tile], None
    yield [program, "check", folder], None
    yield [program, "check", "/dev/zero"], None
    yield [program, "confirm", tile, "/dev/zero"], None
    yield [program, "check", "--not-empty", tile], None
    yield [program, "check", tile], "/dev/full"
    yield ["prlimit", f"--as={32 << 20}", program, "check", "/dev/zero"], None
    for text in ("[" * 128 + "]" * 128, "1e999", "{}", '{"at":0,"code":101,"field":4294967296,"scope":"tile"}'):
        fault.write_text(text)
        yield [program, "confirm", tile, fault], None


def diagnostics(program: str) -> None:
    sections = source(1).split(".Sh DIAGNOSTICS\n")[1].split("\n.Sh ")[0].split(".Ss Status ")[1:]
    listed = {(int(it[0]), line) for it in sections for line in re.findall(r'^\.It "(.*)"$', it, re.MULTILINE)}
    ended = set()
    with tempfile.TemporaryDirectory() as room:
        for words, output in failing(program, pathlib.Path(room)):
            with open(output or "/dev/null", "w") as to:
                run = subprocess.run(words, stdout=to, stderr=subprocess.PIPE, text=True)
            ended.add((run.returncode, run.stderr.rstrip("\n")))
    differ(sorted(listed), sorted(ended))
    texts = "".join(it.read_text() for it in (TOP / "crates").glob("mvt*/src/**/*.rt") if "tests" not in it.parts)
    differ({line for _, line in listed}, set(re.findall(r'"(mvtgate: [^"{]+)"', texts)))


def functions() -> None:
    declared = {name: words for name, words in re.findall(r"^\w+ (mvtgate_\w+)\(([^)]*)\);", HEADER, re.MULTILINE)}
    wanted: Dict[str, List[str]] = {name: [" ".join(it.split()) for it in words.split(",")] for name, words in declared.items()}
    found: Dict[str, List[str]] = {}
    for name, words in re.findall(r"^\.Fo (\w+)\n((?:\.Fa .*\n)+)\.Fc$", source(3), re.MULTILINE):
        found[name] = re.findall(r'^\.Fa "(.*)"$', words, re.MULTILINE)
    found.update({name: [words] for name, words in re.findall(r"^\.Fn (\w+) (\w+)$", source(3), re.MULTILINE)})
    differ(wanted, found)


def constants() -> None:
    statuses_of_header = dict(re.findall(r"^    (MVTGATE_\w+) = (\d+)", HEADER, re.MULTILINE))
    differ(statuses_of_header, dict(re.findall(r"^\.It Dv (MVTGATE_\w+) Pq (\d+)$", source(3), re.MULTILINE)))
    defined = dict(re.findall(r"^#define (MVTGATE_\w+) (\d+)$", HEADER, re.MULTILINE))
    differ([], [name for name in defined if f".Dv {name}" not in source(3) and f".It Dv {name}" not in source(3)])
    differ([defined["MVTGATE_TEXT_ROOM"]], re.findall(r"\.Dv MVTGATE_TEXT_ROOM ,\n(\d+) bytes", source(3)))


def members() -> None:
    document = (TOP / "docs/PLANET.md").read_text()
    table = document.split("A line of `faults.jsonl` has:\n\n")[1].split("\n\n")[0]
    wanted = [name for row in table.splitlines() for name in re.findall(r"`(\w+)`", row.split(" | ")[0])]
    # (those of --all are told of elsewhere)
    for of_all in re.findall(r"`(\w+)`, from 0 for [^`]*, and `(\w+)`, how many the tile has", document):
        wanted[-1:-1] = of_all
    section = (PAGES / "mvtgate-planet.1").read_text().split("has these members:\n")[1].split("\n.El\n")[0]
    differ(wanted, [name for line in re.findall(r"^\.It Li (.*)$", section, re.MULTILINE) for name in line.split(" , ")])


def example() -> None:
    found = re.search(r"^\.Bd -literal -offset indent\n(#include.*?)^\.Ed$", source(3), re.MULTILINE | re.DOTALL)
    assert found
    print(found[1].replace(r"\e", "\\"), end="")


def main() -> None:
    name, *words = sys.argv[1:]
    calls = {"faults": faults, "functions": functions, "constants": constants, "members": members, "example": example}
    of_program = {"statuses": statuses, "lines": lines, "diagnostics": diagnostics}
    if name in of_program:
        of_program[name](*words)
    else:
        calls[name]()


main()
