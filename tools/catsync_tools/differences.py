"""The differences from the server, with the words by which docs/PROFILE.md names them."""
import os
from typing import List, NamedTuple, Optional

from .beside import Compared
from .faults import read_file
from .program import TOP

PROFILE = os.path.join(TOP, "docs", "PROFILE.md")


class Difference(NamedTuple):
    """A part in which two answers differ, and the words in docs/PROFILE.md that name it."""
    part: str
    words: Optional[str]

    @property
    def is_new(self):
        """Whether it isn't named."""
        return self.words is None


def profile():
    """The text of docs/PROFILE.md in small letters, with one blank between words."""
    return " ".join(read_file(PROFILE).decode("utf-8", "replace").lower().split())


def all_differences(all_compared: List[Compared], text) -> List[List[Difference]]:
    """The differences of each command; words count where the page has them."""
    return [[Difference(part, words if words and words.lower() in text else None) for part, words in compared.differences.items()]
            for compared in all_compared]
