"""The programs of vectors/programs: the words that the GNU assembler makes of them.

They are kept in vectors/programs/words.txt, a line a program: its name, a sum of its text, and its words. Where the
assembler is missing (vectors/decode.py says which it is), the words that are kept are used, and no program may have changed
since they were made.
"""
import hashlib
import pathlib
import subprocess
import sys
import tempfile

import manifest
from decode import PACKAGE, tool
from manifest import Wrong

FOLDER = manifest.ROOT / "vectors" / "programs"
PATH = "vectors/programs/words.txt"
HEAD = "# Made by vectors/make: of each program its name, a sum of its text, and its words."


def text_sum(path):
    return hashlib.sha256(path.read_bytes()).hexdigest()[:16]


def assembled(path):
    with tempfile.TemporaryDirectory() as folder:
        made, code = pathlib.Path(folder) / "a.o", pathlib.Path(folder) / "a.bin"
        ran = subprocess.run([tool("as"), "-march=rv64i_zicsr", "-mabi=lp64", "-mno-relax", "-o", made, path])
        if ran.returncode:
            sys.exit(f"vectors/make: the assembler does not take {path}")
        subprocess.run([tool("objcopy"), "-O", "binary", "-j", ".text", made, code], check=True)
        data = code.read_bytes()
    return [int.from_bytes(data[i:i + 4], "little") for i in range(0, len(data), 4)]


def kept():
    lines = [line.split() for line in manifest.stored(PATH) if line and not line.startswith("#")]
    return {name: (total, [int(word, 16) for word in words]) for name, total, *words in lines}


def all_words():
    """Of each program its words: from the assembler, or where it is missing those that are kept."""
    paths = sorted(FOLDER.glob("*.s"))
    if tool("as"):
        return {path.stem: (text_sum(path), assembled(path)) for path in paths}
    print(f"vectors/make: riscv64-unknown-elf-as is not here: {PATH} keeps its words (to assemble them anew install the"
          f" Debian package {PACKAGE})", file=sys.stderr)
    found = kept()
    for path in paths:
        if path.stem not in found or found[path.stem][0] != text_sum(path):
            sys.exit(f"vectors/make: {path} has changed since {PATH} was made, which wants the assembler")
    return {path.stem: found[path.stem] for path in paths}


PROGRAMS = all_words()


def words(name):
    if name not in PROGRAMS:
        raise Wrong(f"'{name}' is no program: write one of {', '.join(PROGRAMS)}")
    return PROGRAMS[name][1]


def lines():
    return [HEAD] + [" ".join([name, total] + [f"{word:08x}" for word in code]) for name, (total, code) in PROGRAMS.items()]
