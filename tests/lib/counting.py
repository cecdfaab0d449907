"""What the scripts of tests/ that are written in Python count: what passed and what failed."""
from __future__ import annotations

import sys
from typing import NoReturn


class Count:
    """How much passed and failed so far."""

    def __init__(self) -> None:
        self.passed = 0
        self.failed = 0

    def judge(self, name: str, good: bool, shown: object = "") -> bool:
        """Counts one thing that was tried, and says what failed with what it showed."""
        if good:
            self.passed += 1
        else:
            self.failed += 1
            print(f"{name}: failed {str(shown)[:600]}".rstrip())
        return good

    def refuse(self, words: str) -> None:
        """Counts what failed, in these words."""
        self.failed += 1
        print(words)

    def finish(self) -> NoReturn:
        """Prints the last line and ends: well where something was tried, and nothing failed."""
        print(f"{self.passed} passed, {self.failed} failed")
        sys.exit(0 if self.failed == 0 and self.passed > 0 else 1)
