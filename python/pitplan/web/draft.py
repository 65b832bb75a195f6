"""A project's text that forms change: all else in it stays, comments too."""

from __future__ import annotations

from collections.abc import Iterator, Mapping
from typing import Any, Optional, Union

import tomlkit
from tomlkit.exceptions import TOMLKitError
from tomlkit.items import AoT, Comment, InlineTable, Item, Table, Whitespace

from pitplan.config.project_writer import key_of
from pitplan.errors import PlanError

# The keys down to a value, with the numbers of entries of lists, from 0.
Path = tuple[Union[str, int], ...]
# Marks a place while a text is changed; no TOML text has it.
MARK = "\0"


def path_of(name: str) -> Path:
    """Returns the path of a key by the name that errors give it: `metals 2.price`."""
    found: list[Union[str, int]] = []
    for part in name.split("."):
        key, _, number = part.partition(" ")
        found += [key, int(number) - 1] if number else [key]
    return tuple(found)


class Draft:
    """A TOML text that is changed key by key. Raises PlanError if `toml_text` does not read it."""

    def __init__(self, text: str) -> None:
        try:
            self.document = tomlkit.parse(text if text.endswith("\n") or not text else f"{text}\n")
        except TOMLKitError as error:
            raise PlanError(f"the text cannot be changed by a form: {error}") from error
        attach_comments(self.document)

    @property
    def text(self) -> str:
        return self.document.as_string()

    def at(self, path: Path) -> Optional[Any]:
        """Returns what is at a path; None if the text has nothing there."""
        found: Any = self.document
        for key in path:
            if isinstance(key, int) and isinstance(found, list) and key < len(found):
                found = found[key]
            elif isinstance(key, str) and isinstance(found, Mapping) and key in found:
                found = found[key]
            else:
                return None
        return found

    def set(self, path: Path, value: str) -> None:
        """Gives a key a value, as TOML has it. What is missing on the way is added: a section at the end, a table on the line of its key."""
        if self.at(path[:1]) is None and len(path) > 1:
            blank = "\n" if self.text.strip() else ""
            self.__init__(f"{self.text.rstrip()}{blank}\n[{key_of(str(path[0]))}]\n".lstrip())  # type: ignore[misc]
        depth = next(k for k in range(len(path) - 1, -1, -1) if self.at(path[:k]) is not None)
        item: Item = tomlkit.value(value)
        for key in reversed(path[depth + 1 :]):
            item = inline({str(key): item})
        holder: Any = self.at(path[:depth])
        name = str(path[depth])
        if name in holder:
            if isinstance(holder[name], (Table, AoT)):
                raise PlanError(f"{name}: is written as a section of its own")
            replace(holder, name, item)
        elif isinstance(holder, InlineTable):
            self.set(path[:depth], inline({**holder.value, name: item}).as_string())
        else:
            container: Any = holder.value if isinstance(holder, Table) else holder
            known = [it for it, held in container.body if it is not None and not isinstance(held, (Table, AoT))]
            if known:
                # The public `append` adds behind blank lines and comments, which belong to what follows.
                container._insert_after(known[-1], name, item)
            else:
                holder.append(name, item)
            self.__init__(self.text)  # type: ignore[misc]

    def remove(self, path: Path) -> None:
        """Removes a key, and tables and sections within others that are empty then."""
        holder, name = self.at(path[:-1]), path[-1]
        if holder is None or name not in holder:
            return
        is_empty = len(holder) == 1 and len(path) > 2 and isinstance(path[-2], str)
        if is_empty:
            self.remove(path[:-1])
        elif isinstance(holder, InlineTable):
            self.set(path[:-1], inline({key: it for key, it in holder.value.items() if key != name}).as_string())
        elif isinstance(holder[name], Table) and any(path == it for it, _ in headers(self.document)):
            before, (_, after) = self.cut(path)[0], self.cut(None, path)
            section = self.text[len(before) : len(self.text) - len(after)]
            self.__init__(before + "\n" * section.endswith("\n\n") + after)  # type: ignore[misc]
        else:
            holder.remove(name)

    def insert(self, path: Path, number: int, keys: Mapping[Path, str]) -> None:
        """Adds an entry to a list of sections, at a number from 0; the list itself if the text has none."""
        block = Draft("[entry]\n")
        for key, value in keys.items():
            block.set(("entry", *key), value)
        entry = block.text.replace("[entry]", f"[[{'.'.join(key_of(str(key)) for key in path)}]]", 1)
        count = len(self.at(path) or ())
        before, after = self.text, ""
        if count:
            before, after = self.cut((*path, number) if number < count else None, (*path, count - 1))
        between = "\n\n" if before.strip() else ""
        self.__init__(f"{before.rstrip()}{between}{entry}" + (f"\n{after}" if after.strip() else ""))  # type: ignore[misc]

    def drop(self, path: Path, number: int) -> None:
        """Removes an entry of a list of sections, and the sections within it."""
        before, _ = self.cut((*path, number))
        _, after = self.cut(None, (*path, number))
        self.__init__(before + after)  # type: ignore[misc]

    def cut(self, at: Optional[Path], behind: Path = ()) -> tuple[str, str]:
        """Returns the text before and from a header on: that of a path, or the first one behind an entry."""
        found = [*headers(self.document)]
        if at is None:
            last = max(k for k, (path, _) in enumerate(found) if path[: len(behind)] == behind)
            following = found[last + 1][1] if last + 1 < len(found) else None
        else:
            following = next(table for path, table in found if path == at)
        if following is None:
            return self.text, ""
        indent = following.trivia.indent
        following.trivia.indent = MARK + indent
        before, _, after = self.text.partition(MARK)
        following.trivia.indent = indent
        return before, after


def inline(items: Mapping[str, Any]) -> Item:
    inner = ", ".join(f"{key_of(key)} = {it.as_string()}" for key, it in items.items())
    return tomlkit.value(f"{{ {inner} }}")


def replace(holder: Any, key: str, item: Item) -> None:
    """Gives a key another value; the comment behind it stays in its column if there is room."""
    before = holder[key].as_string()
    trivia = holder[key].trivia
    blanks = len(trivia.comment_ws) - (len(item.as_string()) - len(before))
    holder[key] = item
    if trivia.comment and not isinstance(holder, InlineTable):
        holder[key].trivia.comment_ws = " " * max(blanks, 1)


def headers(container: Any, path: Path = ()) -> Iterator[tuple[Path, Table]]:
    """Yields the sections with a header of their own in the order of the text."""
    for key, item in container.body:
        inner = (*path, key.key) if key is not None else path
        if isinstance(item, AoT):
            for number, table in enumerate(item.body):
                yield (*inner, number), table
                yield from headers(table.value, (*inner, number))
        elif isinstance(item, Table) and not key.is_dotted():
            if not item.is_super_table():
                yield inner, item
            yield from headers(item.value, inner)


def attach_comments(document: Any) -> None:
    """Lets comments directly above a header belong to it."""
    above: list[tuple[list[Any], int]] = []
    for body, number, item in items_of(document):
        if isinstance(item, Table):
            item.trivia.indent = "".join(held[k][1].as_string() for held, k in above) + item.trivia.indent
            for held, k in above:
                held[k] = (None, Whitespace(""))
        above = [*above, (body, number)] if isinstance(item, Comment) else []


def items_of(container: Any) -> Iterator[tuple[list[Any], int, Any]]:
    """Yields the places and items of a text in its order, of sections their header before what is in them."""
    for number, (key, item) in enumerate(container.body):
        tables = (
            item.body if isinstance(item, AoT) else [item] if isinstance(item, Table) and not key.is_dotted() else []
        )
        if not tables:
            yield container.body, number, item
        for table in tables:
            if not table.is_super_table():
                yield container.body, number, table
            yield from items_of(table.value)
