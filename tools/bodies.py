"""The functions of a source file and where their bodies stand, read once for the tools."""
import collections
import re

Body = collections.namedtuple("Body", "name line start end last")
START = re.compile(r'^(?:pub )?(?:extern "C" )?fn (\w+)', re.M)


def bodies(text):
    """Each function that stands at the margin: its name, its first line, the places where its body starts and ends, and its last line.

    The formatter puts a body's closing brace at the margin, and its opening brace too where there is a contract; where there is none, the
    opening brace ends the signature. Methods of an `impl` block are not at the margin, and are left out.
    """
    line = lambda at: text.count("\n", 0, at) + 1
    for found in START.finditer(text):
        end = text.find("\n}\n", found.end())
        alone, behind = text.find("\n{\n", found.end(), end), text.find("{\n", found.end(), end)
        start = alone + 3 if alone >= 0 else behind + 2
        if end >= 0 and behind >= 0:
            yield Body(found[1], line(found.start()), start, end, line(end + 1))
