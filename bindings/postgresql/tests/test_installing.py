"""The extension as it is installed: by pg_regress, by users, as an upgrade, and beside its words."""
from __future__ import annotations

import pathlib
import re
import shutil
import subprocess
from typing import Any, Callable

import psycopg2  # type: ignore[import]
import pytest

from installation import EXTENSION, Installation
from samples import TOP

VERSION = (TOP / "VERSION").read_text().strip()
FUNCTIONS = "SELECT proname, pg_get_functiondef(oid), obj_description(oid) FROM pg_proc WHERE proname LIKE 'mvt\\_%' ORDER BY 1"


def test_installcheck(installation: Installation) -> None:
    made = installation.make("installcheck", env=installation.environment)
    differences = installation.folder / "built/regression.diffs"
    assert made.returncode == 0, made.stdout + made.stderr + (differences.read_text() if differences.exists() else "")
    assert re.search(r"All (\d+) tests passed", made.stdout), made.stdout


def test_each_regression_test_is_run() -> None:
    named = re.search(r"^REGRESS = (.*)$", (EXTENSION / "Makefile").read_text(), re.MULTILINE)
    assert named and sorted(named[1].split()) == sorted(it.stem for it in (EXTENSION / "test/sql").glob("*.sql"))


def test_the_version_is_that_of_all_parts(cursor: Any) -> None:
    cursor.execute("SELECT extversion FROM pg_extension WHERE extname = 'mvtgate'")
    assert cursor.fetchone() == (VERSION,)


def test_nothing_else_is_exported(installation: Installation) -> None:
    listed = subprocess.run(["nm", "--dynamic", "--defined-only", installation.folder / "built/mvtgate.so"], check=True, capture_output=True, text=True)
    names = {line.split()[-1] for line in listed.stdout.splitlines()}
    functions = {"mvt_is_valid", "mvt_fault", "mvt_faults", "mvt_confirm", "mvt_explain", "mvt_mend", "mvt_mend_report", "mvt_dump"}
    assert names == functions | {f"pg_finfo_{it}" for it in functions} | {"Pg_magic_func", "_PG_init"}


def test_who_may_create_may_have_it(installation: Installation) -> None:
    installation.make_database("of_a_user")
    connection = installation.connect("of_a_user")
    cursor = connection.cursor()
    cursor.execute("CREATE ROLE a_user")
    cursor.execute("GRANT CREATE ON DATABASE of_a_user TO a_user")
    cursor.execute("SET ROLE a_user")
    cursor.execute("CREATE SCHEMA gate")
    cursor.execute("CREATE EXTENSION mvtgate SCHEMA gate")
    cursor.execute("SELECT gate.mvt_is_valid('')")
    assert cursor.fetchone() == (True,)
    cursor.execute("DROP EXTENSION mvtgate")
    connection.close()


def test_an_upgrade_gives_the_same_as_a_fresh_one(installation: Installation, connect: Callable[[], Any]) -> None:
    # (an older version with fewer functions, of which one has another cost)
    folder = installation.folder / "usr/share/postgresql/15/extension"
    script = (folder / f"mvtgate--{VERSION}.sql").read_text()
    first = script[: script.index("CREATE OR REPLACE FUNCTION mvt_faults")]
    (folder / "mvtgate--0.0.1.sql").write_text(first.replace("COST 1000", "COST 7"))
    (folder / f"mvtgate--0.0.1--{VERSION}.sql").write_text(script)
    installation.make_database("upgraded")
    connection = installation.connect("upgraded")
    cursor, fresh = connection.cursor(), connect().cursor()
    cursor.execute("CREATE EXTENSION mvtgate VERSION '0.0.1'")
    fresh.execute(FUNCTIONS)
    functions = fresh.fetchall()
    assert len(functions) == 8
    cursor.execute(FUNCTIONS)
    assert len(cursor.fetchall()) == 2
    cursor.execute("ALTER EXTENSION mvtgate UPDATE")
    cursor.execute(FUNCTIONS)
    assert cursor.fetchall() == functions
    cursor.execute("DROP EXTENSION mvtgate")
    cursor.execute(FUNCTIONS)
    assert cursor.fetchall() == []
    connection.close()


def test_each_released_version_has_a_way_to_this_one(cursor: Any) -> None:
    cursor.execute("SELECT source FROM pg_extension_update_paths('mvtgate') WHERE target = %s AND path IS NOT NULL", (VERSION,))
    found = {source for (source,) in cursor.fetchall()} | {VERSION}
    released = re.findall(r"^## \[([\d.]+)\] - ", (TOP / "CHANGELOG.md").read_text(), re.MULTILINE)
    assert [it for it in released if it not in found] == []


def test_scripts_of_upgrades_are_installed(installation: Installation, tmp_path: pathlib.Path) -> None:
    """By the Makefile of a copy, and git takes them."""
    name = f"mvtgate--0.0.2--{VERSION}.sql"
    for it in (EXTENSION, EXTENSION.parent / "sql"):
        shutil.copytree(it, tmp_path / "bindings" / it.name)
    copy = tmp_path / "bindings/postgresql"
    (copy / "upgrades").mkdir(exist_ok=True)
    (copy / "upgrades" / name).write_text("SELECT 1;\n")
    made = installation.make("install", f"DESTDIR={tmp_path}/root", makefile=copy / "Makefile")
    assert made.returncode == 0, made.stdout + made.stderr
    assert [it.read_text() for it in (tmp_path / "root").rglob(name)] == ["SELECT 1;\n"]
    ignored = subprocess.run(["git", "check-ignore", EXTENSION / "upgrades" / name], cwd=TOP, capture_output=True, text=True)
    assert (ignored.returncode, ignored.stdout) == (1, "")


def test_the_longest_tile_holds_against_clients(installation: Installation) -> None:
    """Where the server has the library from its start, as README.md says."""
    installation.make_database("bounded")
    connection = installation.connect("bounded")
    connection.cursor().execute("CREATE EXTENSION mvtgate; CREATE ROLE a_client LOGIN")
    connection.cursor().execute("ALTER DATABASE bounded SET mvtgate.longest_tile = '2MB'")
    connection.close()
    installation.stop()
    installation.start("shared_preload_libraries=mvtgate")
    try:
        with pytest.raises(psycopg2.OperationalError, match='permission denied to set parameter "mvtgate.longest_tile"'):
            installation.connect("bounded", "a_client", "-c mvtgate.longest_tile=64MB")
        connection = installation.connect("bounded", "a_client")
        with pytest.raises(psycopg2.errors.ProgramLimitExceeded):
            connection.cursor().execute("SELECT mvt_is_valid(%s)", (bytes(3 << 20),))
        connection.close()
    finally:
        installation.stop()
        installation.start()


def test_a_database_of_another_encoding(installation: Installation) -> None:
    connection = installation.connect()
    connection.cursor().execute("CREATE DATABASE latin ENCODING 'LATIN1' LOCALE 'C' TEMPLATE template0")
    connection.close()
    connection = installation.connect("latin")
    cursor = connection.cursor()
    cursor.execute("CREATE EXTENSION mvtgate")
    # a layer without features by the name 'é', and one by the name '日'
    cursor.execute("SELECT mvt_dump('\\x1a0678020a02c3a9') #>> '{layers,0,name}'")
    assert cursor.fetchone() == ("é",)
    cursor.execute("SELECT mvt_is_valid('\\x1a0778020a03e697a5')")
    assert cursor.fetchone() == (True,)
    with pytest.raises(psycopg2.errors.UntranslatableCharacter):
        cursor.execute("SELECT mvt_dump('\\x1a0778020a03e697a5')")
    connection.close()


def test_a_text_that_jsonb_cannot_hold(cursor: Any) -> None:
    # (a layer's name of one character, U+0000)
    cursor.execute("SELECT mvt_is_valid('\\x1a0578020a0100')")
    assert cursor.fetchone() == (True,)
    with pytest.raises(psycopg2.errors.UntranslatableCharacter):
        cursor.execute("SELECT mvt_dump('\\x1a0578020a0100')")


def test_the_words_are_made_from_those_of_all_languages() -> None:
    assert subprocess.run([TOP / "bindings/sql/make_words", "--check"]).returncode == 0
