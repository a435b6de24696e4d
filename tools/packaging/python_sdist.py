"""The source package for pip: the module of Python, and the library in C, which pip compiles where no wheel fits."""

from __future__ import annotations

import archives
import c_package
import facts
import python_wheel

PYPROJECT = """\
[build-system]
requires = ["setuptools"]
build-backend = "setuptools.build_meta"
"""

# PKG-INFO describes the sources, and this again, since pip reads it here.
SETUP = '''\
"""Compiles the library beside the module. It needs a compiler of C on a system with POSIX, and no network."""

import os

from setuptools import Extension, setup
from setuptools.command.build_ext import build_ext


class Build(build_ext):
    """Builds a library for ctypes, which isn't a module of Python's."""

    def get_ext_filename(self, name):
        return os.path.join(*name.split(".")) + ".so"

    def get_export_symbols(self, extension):
        return extension.export_symbols


library = Extension(
    "{name}.libbcs",
    ["c/bcs_library.c"],
    include_dirs=["c"],
    depends=["c/bcs.h"],
    extra_compile_args=["-std=gnu11", "-g0", "-w", *os.environ.get("CFLAGS", "-O2").split()],
)
setup(
    name="{name}",
    version="{version}",
    description="{description}",
    license="{licence}",
    python_requires="{python}",
    packages=["{name}", "{name}.vectors"],
    package_data={{"{name}": ["py.typed"]}},
    ext_modules=[library],
    extras_require={{"yaml": ["PyYAML"]}},
    entry_points={{"console_scripts": ["{command}"]}},
    cmdclass={{"build_ext": Build}},
)
'''


def contents(bill: archives.File) -> archives.Files:
    told = python_wheel.project()
    files = python_wheel.sources()
    setup = SETUP.format(
        name=told["name"],
        version=facts.version(),
        description=told["description"],
        licence=facts.licence(),
        python=told["requires-python"],
        command=python_wheel.COMMAND,
    )
    files |= {"setup.py": archives.text(setup), "pyproject.toml": archives.text(PYPROJECT)}
    files |= {
        "c/bcs_library.c": c_package.library(),
        "c/bcs.h": archives.taken(facts.ROOT / "bindings/c/include/bcs.h"),
    }
    files["PKG-INFO"] = archives.text(python_wheel.metadata(told))
    files["MANIFEST.in"] = archives.text("include c/bcs.h\n")
    files["README.md"] = archives.text(facts.readme("bindings/python"))
    files[f"{facts.NAME}.spdx.json"] = bill
    for name in facts.licence_files().values():
        files[name] = archives.taken(facts.ROOT / name)
    return files


def make(bill: archives.File) -> dict[str, bytes]:
    name = f"{python_wheel.project()['name']}-{facts.version()}"
    return {f"{name}.tar.gz": archives.gzipped(archives.tar(contents(bill), f"{name}/"))}
