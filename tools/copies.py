"""Copies of the files that the words of a call name, so that two programs are asked the same."""

import os
import pathlib

# How much of a file is copied, in bytes: a text of more than half of that is refused whatever follows.
MOST = 2 * 1024 * 1024
# The names that `rt try` keeps for itself in the folder that a program runs in.
RESERVED = ("program", "stdin", "stdout", "stderr", "case")


def name_of_copy(word):
    """Gives the name that the copy of a file has: the word itself where that is a path below the folder of the call."""
    name = os.path.normpath(word)
    parts = pathlib.PurePath(name).parts
    if not os.path.isabs(name) and ".." not in parts and parts[0] not in RESERVED and "=" not in name:
        return name
    return "copy_of_" + parts[-1].replace("=", "_")


class Copies:
    """A folder, within that given, with a copy of each file that a word names, and the words for a program that runs there. The program
    reads its FILE and no other; where that is /dev/stdin, the copy has what standard input gave."""

    def __init__(self, folder, words, crate):
        self.folder, self.files = pathlib.Path(folder) / "copies", {}
        self.folder.mkdir()
        self.words = [self.word_there(it, crate) for it in words]

    def word_there(self, word, crate):
        """Copies what a word names, and gives the word for the program that runs in the folder."""
        if not os.path.exists(word) or os.path.isdir(word):
            # `rt try` runs in the folder of the crate, and would give the program a file of that name.
            return os.path.abspath(word) if os.path.isfile(crate / word) else word
        name = name_of_copy(word)
        if name not in self.files:
            try:
                with open(word, "rb") as file:
                    text = file.read(MOST)
            except OSError:
                return word
            self.files[name] = self.folder / name
            self.files[name].parent.mkdir(parents=True, exist_ok=True)
            self.files[name].write_bytes(text)
        return word if os.path.normpath(word) == name else name
