"""Where the repository is. After an import of this one, tests can import the packages of tools/ too."""
import pathlib
import sys

TOP = pathlib.Path(__file__).resolve().parent.parent
# A test is run as `python3 tests/NAME.py`, and so has only the folder of the tests on its path.
sys.path.append(str(TOP / "tools"))
