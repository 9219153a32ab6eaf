"""What the scripts of the trials have in common: they use one another's definitions, and their cases stand in `stdin`, a line each."""
import importlib.util
import pathlib
import sys

sys.dont_write_bytecode = True  # no compiled scripts in the folders of crates
CRATES = pathlib.Path(__file__).resolve().parents[1] / "crates"


def script(crate):
    """The definitions of `expected.py` of another trial."""
    spec = importlib.util.spec_from_file_location(crate, CRATES / crate / "expected.py")
    module = importlib.util.module_from_spec(spec)
    spec.loader.exec_module(module)
    return module


def cases_of(crate):
    """Each case of a trial: the book that stands above it, its title, and what is tried."""
    book = b""
    for line in (CRATES / crate / "stdin").read_text().splitlines():
        if line.startswith("="):
            book = bytes.fromhex(line[1:])
        elif not line.startswith("#"):
            title, case = line.split(":")
            yield book, title, case
