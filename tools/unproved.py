"""Asks the program as it is built without proof, by `rt try`."""

import re
import typing

from children import Child

# A remark of `rt`, which may stand before what the program wrote to standard error.
REMARK = re.compile(rb"^rt: .*\n", re.M)
# The first line of `rt` behind that.
FIRST_OF_RT = re.compile(rb"^(?:interpreter|checked|races|run): .*|^run=.*", re.M)
# The last line where the program ended by itself.
ENDED = re.compile(rb"^run=ended status=(\d+) .*\n\Z", re.M)


class Answer(typing.NamedTuple):
    """What a program answered."""

    status: int
    out: bytes
    err: bytes


class Attempt(Child):
    """The unproved program, asked with the words of a call."""

    def __init__(self, copies, crate):
        self.paths = [copies.folder.parent / it for it in ("unproved.out", "unproved.err")]
        words = ["rt", "try"]
        for name, file in copies.files.items():
            words += ["--data", f"{name}={file}"]
        with open(self.paths[0], "wb") as out, open(self.paths[1], "wb") as err:
            super().__init__([*words, "--", *copies.words], cwd=crate, stdout=out, stderr=err)

    def answer(self):
        """Gives its answer once it has ended, or None where it came to none, and what `rt` said."""
        out, err = (it.read_bytes() for it in self.paths)
        first, ended = FIRST_OF_RT.search(err), ENDED.search(err)
        said = err[first.start():] if first else err
        if not ended:
            return None, said.decode(errors="replace")
        return Answer(int(ended[1]), out, REMARK.sub(b"", err[: first.start()])), ""
