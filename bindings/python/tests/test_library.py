"""Where the dynamic library is looked for. Each case is a Python of its own, since the library is loaded once."""

import os
import pathlib
import platform
import shutil
import subprocess
import sys
import tempfile
import unittest

MODULE = pathlib.Path(__file__).resolve().parent.parent / "bcs_proved"
LIBRARY = pathlib.Path(os.environ["BCS_LIBRARY"]).resolve()
SCRIPT = "import bcs_proved; print(bcs_proved.Registry('{}'%s).encode('\"U8\"', 7).hex())"


# A Python that takes itself for one on Windows. What of it isn't the module's own, as ctypes, still works as on Linux.
ON_WINDOWS = "import ctypes, json, pathlib, sys; sys.platform = 'win32'; "


def run(folder: str, words: str = "", before: str = "", **variables: str) -> subprocess.CompletedProcess[str]:
    """Runs in the folder, where the module is, with no more variables than these."""
    environment = {"PYTHONDONTWRITEBYTECODE": "1", **variables}
    command = [sys.executable, "-c", before + SCRIPT % words]
    return subprocess.run(command, cwd=folder, env=environment, capture_output=True, text=True, check=False)


class Places(unittest.TestCase):
    def setUp(self) -> None:
        room = tempfile.TemporaryDirectory()
        self.addCleanup(room.cleanup)
        self.folder = room.name
        shutil.copytree(MODULE, pathlib.Path(self.folder) / MODULE.name)

    def test_an_argument(self) -> None:
        self.assertEqual(run(self.folder, f", library={str(LIBRARY)!r}").stdout, "07\n")
        self.assertEqual(run(self.folder, f", library=bcs_proved.Library({str(LIBRARY)!r})").stdout, "07\n")
        self.assertEqual(run(self.folder, f", library={str(LIBRARY)!r}", BCS_LIBRARY="/nowhere").stdout, "07\n")

    def test_the_variable(self) -> None:
        self.assertEqual(run(self.folder, BCS_LIBRARY=str(LIBRARY)).stdout, "07\n")

    def test_beside_the_module(self) -> None:
        shutil.copy(LIBRARY, pathlib.Path(self.folder) / MODULE.name / "libbcs.so")
        self.assertEqual(run(self.folder).stdout, "07\n")

    def test_in_a_clone(self) -> None:
        """In a clone, the module finds dist/. Anywhere else, a folder dist/ above it or here means nothing."""
        room = pathlib.Path(self.folder).resolve()
        dist = room / "dist" / f"{platform.machine()}-linux"
        dist.mkdir(parents=True)
        shutil.copy(LIBRARY, dist / "libbcs.so")
        for path, found in [("bindings/python", "07\n"), ("bindings/other", ""), ("lib/python/site-packages", "")]:
            with self.subTest(path):
                shutil.copytree(MODULE, room / path / MODULE.name)
                told = run(self.folder, before="import sys; del sys.path[0]; ", PYTHONPATH=str(room / path))
                self.assertEqual(told.stdout, found)
        self.assertEqual(run(str(room / "bindings/python"), BCS_LIBRARY="/nowhere").stdout, "")

    def test_the_system(self) -> None:
        shutil.copy(LIBRARY, pathlib.Path(self.folder) / "libbcs.so.0")
        self.assertEqual(run(self.folder, LD_LIBRARY_PATH=self.folder).stdout, "07\n")

    def test_beside_the_module_on_windows(self) -> None:
        shutil.copy(LIBRARY, pathlib.Path(self.folder) / MODULE.name / "bcs.dll")
        self.assertEqual(run(self.folder, before=ON_WINDOWS).stdout, "07\n")

    def test_never_by_name_on_windows(self) -> None:
        shutil.copy(LIBRARY, pathlib.Path(self.folder) / "bcs.dll")
        shutil.copy(LIBRARY, pathlib.Path(self.folder) / "libbcs.so.0")
        told = run(self.folder, before=ON_WINDOWS, LD_LIBRARY_PATH=self.folder, PATH=self.folder)
        self.assertNotEqual(told.returncode, 0)
        self.assertIn(f"can't load {pathlib.Path(self.folder).resolve() / MODULE.name / 'bcs.dll'}", told.stderr)
        self.assertIn("platforms/windows/build.sh", told.stderr)

    def test_nowhere(self) -> None:
        told = run(self.folder, BCS_LIBRARY="/nowhere/libbcs.so")
        self.assertNotEqual(told.returncode, 0)
        self.assertIn("/nowhere/libbcs.so", told.stderr)
        self.assertIn("bindings/c/build.sh", told.stderr)

    def test_an_older_version(self) -> None:
        """It lacks a function, as any other library does."""
        told = run(self.folder, ", library='libc.so.6'")
        self.assertNotEqual(told.returncode, 0)
        self.assertIn("ImportError: bcs_proved needs another version of libbcs.so than libc.so.6", told.stderr)
        self.assertNotIn("AttributeError", told.stderr)


if __name__ == "__main__":
    unittest.main()
