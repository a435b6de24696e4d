"""wheel_examples.py README FOLDER: runs the examples of a README with the module `bcs_proved` that is installed.

The module must be installed below a folder with the name FOLDER. tests/packages.py gives this to Pythons that have one.
"""

from __future__ import annotations

import doctest
import pathlib
import sys

import bcs_proved

readme, parent = sys.argv[1:]
folder = pathlib.Path(bcs_proved.__file__).parent
assert parent in folder.parts and (folder / "py.typed").exists() and (folder / "libbcs.so").exists(), folder
failed, tried = doctest.testfile(readme, module_relative=False)
assert failed == 0 and tried >= 4, (failed, tried)
print(f"pip install, import bcs_proved, {tried} examples")
