"""Datamine files, written word by word after the description of the format by code of the tests' own, and read back plainly."""

import struct

PAGE, DATA = 512, 508


def word_of(value, size, order):
    """A number, or up to four characters, in one word."""
    if isinstance(value, str):
        return value.encode("cp1252").ljust(4)[:4].ljust(size, b" ")
    return struct.pack(order + {4: "f", 8: "d"}[size], value)


def words_of_text(text, count):
    return [text[4 * k : 4 * k + 4].ljust(4) for k in range(count)]


def page_of(words, size, order):
    words = [*words, *([0.0] * (PAGE - len(words)))]
    return b"".join(word_of(word, size, order) for word in words)


def definition_of(fields, pages, on_last):
    """The words of the first page. `fields` are (name, A or N, word from 1 or 0, part, default)."""
    words = [*words_of_text("MODEL", 2), *words_of_text("", 2), *words_of_text("a block model of the tests", 16)]
    words += [1_261_128.0, float(len(fields)), float(pages), float(on_last)]
    for name, kind, place, part, default in fields:
        words += [*words_of_text(name, 2), kind.ljust(4), float(place), float(part), "", default]
    return words


def file_of(columns, size=8, order="<", fixed=None, **bent):
    """The bytes of a file with columns of numbers or texts, by name, and implicit ones of one value. `bent` replaces numbers of the definition."""
    fields, stored, at = [], [], 1
    for name, values in columns.items():
        if isinstance(values[0], str):
            count = -(-max(map(len, values)) // 4) or 1
            fields += [(name, "A", at + part, part + 1, "") for part in range(count)]
            stored += [[words_of_text(text, count)[part] for text in values] for part in range(count)]
        else:
            fields.append((name, "N", at, 1, 0.0))
            stored.append(list(map(float, values)))
        at = len(stored) + 1
    for name, value in (fixed or {}).items():
        count = -(-len(value) // 4) if isinstance(value, str) else 1
        pieces = words_of_text(value, count) if isinstance(value, str) else [float(value)]
        fields += [(name, "A" if isinstance(value, str) else "N", 0, part, it) for part, it in enumerate(pieces, 1)]
    rows = list(zip(*stored))
    per_page = DATA // len(stored)
    parts = [rows[start : start + per_page] for start in range(0, len(rows), per_page)]
    told = {"pages": len(parts) + 1, "on_last": len(parts[-1]) if parts else 0} | bent
    data = page_of(definition_of(fields, **told), size, order)
    return data + b"".join(page_of([word for row in part for word in row], size, order) for part in parts)


def read_plainly(data):
    """The fields of a file in double precision as lists, by name: for files of the export."""

    def number(word):
        return struct.unpack_from("<d", data, 8 * word)[0]

    def text(word, count=1):
        return b"".join(data[8 * at : 8 * at + 4] for at in range(word, word + count)).decode("cp1252")

    fields, pages, on_last = (int(number(word)) for word in (21, 22, 23))
    told = [
        (text(at, 2).strip(), text(at + 2).strip(), int(number(at + 3)), at + 6) for at in range(24, 24 + 7 * fields, 7)
    ]
    length = max(place for _, _, place, _ in told)
    per_page = DATA // length
    assert len(data) == pages * PAGE * 8
    starts = [PAGE * page + length * row for page in range(1, pages) for row in range(per_page)]
    starts = starts[: (pages - 2) * per_page + on_last]
    found = {}
    for name, kind, place, default in told:
        words = [start + place - 1 for start in starts] if place else [default] * len(starts)
        values = [text(word) if kind == "A" else number(word) for word in words]
        found[name] = [a + b for a, b in zip(found[name], values)] if name in found else values
    return {name: [it.rstrip() if isinstance(it, str) else it for it in values] for name, values in found.items()}
