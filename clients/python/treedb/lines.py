"""Lines that somebody types: with history and completion, by `prompt_toolkit` where it is there, and else by `readline`."""

from __future__ import annotations

import contextlib
import os
import pathlib
from collections.abc import Iterable, Iterator
from typing import Any, Callable

__all__ = ["History", "typed"]

# How many lines are remembered.
REMEMBERED = 1_000

# From where on a line may be completed, and by what.
Completing = Callable[[str], "tuple[int, list[str]]"]


class History:
    """Lines that were typed before, in a file that its user alone may read; in none where there is no path."""

    def __init__(self, path: str | None) -> None:
        self.path = pathlib.Path(path).expanduser() if path else None

    def lines(self) -> list[str]:
        """The latest lines, the oldest first."""
        if self.path is None or not self.path.is_file():
            return []
        return self.path.read_text(encoding="utf-8", errors="replace").splitlines()[-REMEMBERED:]

    def add(self, line: str) -> None:
        # A history that can't be written is none.
        with contextlib.suppress(OSError):
            if self.path is not None:
                with open(os.open(self.path, os.O_WRONLY | os.O_CREAT | os.O_APPEND, 0o600), "a", encoding="utf-8") as file:
                    file.write(f"{line}\n")


def typed(prompt: str, history: History, completing: Completing) -> Iterator[str]:
    """Each line that is typed at a terminal, up to its end. Ctrl-C drops what is typed so far."""
    ask = _with_prompt_toolkit(prompt, history, completing) or _with_readline(prompt, history, completing)
    while True:
        try:
            line = ask()
        except KeyboardInterrupt:
            print()
            continue
        except EOFError:
            print()
            return
        if line.strip():
            history.add(line)
        yield line


def _with_prompt_toolkit(prompt: str, history: History, completing: Completing) -> Callable[[], str] | None:
    try:
        from prompt_toolkit import PromptSession
        from prompt_toolkit.completion import Completer, Completion
        from prompt_toolkit.history import InMemoryHistory
    except ImportError:
        return None

    class Words(Completer):
        def get_completions(self, document: Any, complete_event: Any) -> Iterable[Any]:
            start, words = completing(document.text_before_cursor)
            return [Completion(word, start - document.cursor_position) for word in words]

    session: Any = PromptSession(history=InMemoryHistory(history.lines()), completer=Words(), complete_while_typing=False)
    return lambda: str(session.prompt(prompt))


def _with_readline(prompt: str, history: History, completing: Completing) -> Callable[[], str]:
    # Not every Python has it.
    with contextlib.suppress(ImportError):
        import readline

        found: list[str] = []

        def complete(_: str, place: int) -> str | None:
            if place == 0:
                line, begin = readline.get_line_buffer()[: readline.get_endidx()], readline.get_begidx()
                start, words = completing(line)
                # What readline replaces begins behind the last space, which may stand within quotes.
                found[:] = [word[begin - start :] for word in words]
            return found[place] if place < len(found) else None

        readline.set_completer(complete)
        readline.set_completer_delims(" \t")
        readline.parse_and_bind("tab: complete")
        for line in history.lines():
            readline.add_history(line)
    return lambda: input(prompt)
