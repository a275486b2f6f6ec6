"""Tables of test programs: written, or held to what is written.

A script that makes a crate's `stdin` and `stdout` hands them over here; with --check nothing
is written, and it fails where a file is not what the script would write.
"""

import os
import sys

HERE = os.path.dirname(os.path.abspath(__file__))


def is_check():
    return "--check" in sys.argv[1:]


def keep(crate, files):
    """Writes {name: bytes} to the crate's folder, or compares."""
    stale = []
    for name, data in files.items():
        path = os.path.join(HERE, "..", "crates", crate, name)
        if is_check():
            with open(path, "rb") as file:
                if file.read() != data:
                    stale.append(path)
        else:
            with open(path, "wb") as file:
                file.write(data)
    if stale:
        sys.exit("not what %s writes: %s" % (os.path.basename(sys.argv[0]), ", ".join(stale)))
