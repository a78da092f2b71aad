"""Puts libmvtgate.so, the extension that calls it, faults.json and the page into the wheel, and names the wheel for the systems and
Pythons that it runs on.

The library is the one that MVTGATE_LIBRARY names, or the one that tools/library of the repository made. The page, and the script and
style of reports, are in the folder that MVTGATE_WEB names, or where tools/page of the repository made them.

The extension (native/) is compiled for the stable interface of Python 3.10, so that one serves each Python from there on
(cp310-abi3). Where it can't be compiled, the wheel goes without it, for any Python 3 (py3-none), and calls the library by ctypes. What
ties a wheel to a system is the library: code for x86-64 that needs nothing but the C library. The tag manylinux_2_34_x86_64 says so:
glibc 2.34 or later, which is what the extension needs, too. The library itself needs an older one, 2.14, but also a processor of level
x86-64-v2; distributions of that glibc are the first to be built for it (RHEL 9), and installers know no tag for processors. A build
stops where either would need more than the tag says.

The version is that of the repository's file VERSION.

There is no source distribution: what the library is made from is the whole repository, with its proofs.
"""
import os
import pathlib
import re
import shutil

from setuptools import Extension, setup
from setuptools.command.build_ext import build_ext
from setuptools.command.build_py import build_py
from setuptools.command.sdist import sdist
from wheel.bdist_wheel import bdist_wheel

GLIBC = (2, 34)
HERE = pathlib.Path(__file__).resolve().parent
SOURCES = sorted(it.name for it in (HERE / "native").glob("*.c"))


def fit(path):
    """A file of code, which has to be fit for the systems that the wheel's tag names."""
    code = path.read_bytes()
    if code[:5] != b"\x7fELF\x02" or int.from_bytes(code[18:20], "little") != 62:
        raise SystemExit(f"setup.py: {path} is no library for x86-64")
    # (versions stand as texts in the table of strings)
    wanted = {tuple(map(int, it.split(b"."))) for it in re.findall(rb"\0GLIBC_([0-9.]+)(?=\0)", code)}
    if max(wanted, default=(2, 0)) > GLIBC:
        raise SystemExit(f"setup.py: {path} needs a later glibc than {GLIBC}, which the wheel's tag says: {sorted(wanted)}")
    return path


def library():
    path = pathlib.Path(os.environ.get("MVTGATE_LIBRARY") or HERE.parent.parent / "bindings/c/out/libmvtgate.so")
    if not path.exists():
        raise SystemExit(f"setup.py: there is no {path}: run tools/library")
    return fit(path)


def web(name):
    path = pathlib.Path(os.environ.get("MVTGATE_WEB") or HERE.parent.parent / "web/out", name)
    if not path.exists():
        raise SystemExit(f"setup.py: there is no {path}: run tools/page")
    return path


class BuildWithLibrary(build_py):
    def run(self):
        super().run()
        package = pathlib.Path(self.build_lib, "mvtgate")
        # (copy follows the links from libmvtgate.so to the file)
        shutil.copy(library(), package / "libmvtgate.so")
        shutil.copy(HERE.parent / "faults.json", package)
        shutil.copy(web("index.html"), package / "planet/page.html")
        for name in ("report.js", "report.css"):
            shutil.copy(web(name), package / "planet/report")


class BuildExtension(build_ext):
    def run(self):
        super().run()
        for it in self.made():
            fit(it)

    def made(self):
        """The extension, where it could be compiled."""
        return [it for it in map(pathlib.Path, self.get_outputs()) if it.exists()]


class NoSources(sdist):
    def run(self):
        raise SystemExit("setup.py: there is no source distribution; make a wheel: python3 -m build --wheel --no-isolation bindings/python")


class WheelOfPlatform(bdist_wheel):
    def get_tag(self):
        platform = f"manylinux_{GLIBC[0]}_{GLIBC[1]}_x86_64"
        return ("cp310", "abi3", platform) if self.get_finalized_command("build_ext").made() else ("py3", "none", platform)


setup(
    version=(HERE.parent.parent / "VERSION").read_text().strip(),
    ext_modules=[
        Extension(
            "mvtgate._native",
            [f"native/{it}" for it in SOURCES],
            include_dirs=["native", str(HERE.parent / "c")],
            # (without what names folders, so that the same sources give the same bytes)
            extra_compile_args=["-std=gnu99", "-O2", "-g0", "-fvisibility=hidden", "-Wall", "-Wextra", "-Wno-missing-field-initializers"],
            extra_link_args=["-s", "-Wl,-z,relro,-z,now"],
            py_limited_api=True,
            optional=True,
        )
    ],
    cmdclass={"build_py": BuildWithLibrary, "build_ext": BuildExtension, "sdist": NoSources, "bdist_wheel": WheelOfPlatform},
)
