"""Packs the shared library and the loops in C into the wheel. The wheel depends on the platform, but not on the version of Python.

Without a C compiler or Python.h, or for another machine, the wheel has no loops in C, and the package loops in Python.

The library comes from a folder of dist/: this machine's, or UM_WHEEL (x86_64-linux, aarch64-linux, x86_64-windows, x86_64-macos,
arm64-macos); UM_SO overrides the path. A source archive carries um.h and the libraries of dist/. Builds are reproducible: the same sources
and library yield the same wheel, bit for bit."""
import os
import pathlib
import platform
import shutil

import setuptools

if int(setuptools.__version__.split(".")[0]) < 61:
    raise SystemExit(
        f"um: setuptools is {setuptools.__version__}; expected 61 or later, which reads pyproject.toml. Without --no-build-isolation pip "
        f"fetches one; without a network set PYTHONPATH=bindings/python, which needs no installation.")

from setuptools import Distribution, Extension, setup
from setuptools.command.build_py import build_py
from setuptools.command.sdist import sdist

try:
    from setuptools.command.bdist_wheel import bdist_wheel  # setuptools 70.1 and later
except ImportError:
    from wheel.bdist_wheel import bdist_wheel

HERE = pathlib.Path(__file__).resolve().parent
# in a source archive um.h and dist/ are beside this file
IN_ARCHIVE = (HERE / "include" / "um.h").exists()
HEADERS = HERE / "include" if IN_ARCHIVE else HERE.parent / "c"
DIST = (HERE if IN_ARCHIVE else HERE.parents[1]) / "dist"
SYSTEM = {"Windows": "windows", "Darwin": "macos"}.get(platform.system(), "linux")
MACHINE = platform.machine().replace("AMD64", "x86_64") + "-" + SYSTEM
FOLDER = os.environ.get("UM_WHEEL", MACHINE)
# by the folder in dist/: the library, and the platform of the wheel
WHEELS = {
    "x86_64-linux": ("libum.so.0", "manylinux2014_x86_64"),
    "aarch64-linux": ("libum.so.0", "manylinux2014_aarch64"),
    "x86_64-windows": ("um.dll", "win_amd64"),
    "x86_64-macos": ("libum.0.dylib", "macosx_11_0_x86_64"),
    "arm64-macos": ("libum.0.dylib", "macosx_11_0_arm64"),
}
os.environ.setdefault("SOURCE_DATE_EPOCH", "315532800")  # 1980, the earliest timestamp that a wheel can have


def library():
    """The library of the wheel."""
    if FOLDER not in WHEELS:
        raise SystemExit(f"um: there is no library for {FOLDER}; UM_WHEEL is one of {', '.join(WHEELS)}")
    found = pathlib.Path(os.environ.get("UM_SO", str(DIST / FOLDER / WHEELS[FOLDER][0])))
    if not found.exists():
        raise SystemExit(
            f"um: {found}, which the wheel contains, is missing. A release has it in dist/{FOLDER}; UM_SO overrides the path. "
            f"bindings/python/um/_library.py describes how to build it. pip must be 21.3 or later, which builds in the checkout.")
    return found


class WithLibrary(build_py):
    def run(self):
        super().run()
        if not getattr(self, "editable_mode", False):
            shutil.copyfile(library(), os.path.join(self.build_lib, "um", WHEELS[FOLDER][0]))


class WithLibraries(sdist):
    def make_release_tree(self, base_dir, files):
        super().make_release_tree(base_dir, files)
        libraries = [pathlib.Path(folder, name) for folder, (name, _) in WHEELS.items() if (DIST / folder / name).exists()]
        for source, name in ((HEADERS / "um.h", "include/um.h"), *((DIST / path, "dist" / path) for path in libraries)):
            to = pathlib.Path(base_dir, name)
            to.parent.mkdir(parents=True, exist_ok=True)
            shutil.copyfile(source, to)


class PlatformWheel(bdist_wheel):
    def get_tag(self):
        in_c = any(file.suffix in (".so", ".pyd") for file in pathlib.Path(self.bdist_dir, "um").glob("_loops.*"))
        return (*(("cp38", "abi3") if in_c else ("py3", "none")), WHEELS[FOLDER][1])


class OfAPlatform(Distribution):
    def has_ext_modules(self):
        return True


# without debug information, which has the path of the build
LOOPS = Extension(
    "um._loops", ["um/_loops.c"], include_dirs=[str(HEADERS)], extra_compile_args=["-O2", "-g0"], py_limited_api=True, optional=True)

setup(
    cmdclass={"bdist_wheel": PlatformWheel, "build_py": WithLibrary, "sdist": WithLibraries}, distclass=OfAPlatform,
    ext_modules=[LOOPS] if FOLDER == MACHINE else [])
