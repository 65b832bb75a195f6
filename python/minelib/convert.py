"""Published files to the program's: each kind read, fitted and written, with a record of all that was done."""

from __future__ import annotations

import json
import os
import shutil
import tempfile
from dataclasses import dataclass, replace
from pathlib import Path
from typing import Any, Iterable, Optional

from . import block_models, models, precedence
from .numbers import fit
from .text import MinelibError

MODEL, PREC, BLOCKS, RECORD = "mine.upit", "mine.prec", "mine.blocks", "convert.json"
MODELS = (".upit", ".cpit", ".pcpsp")
FORMATS = (*MODELS, ".prec", ".blocks")


@dataclass(frozen=True)
class Limits:
    """The most blocks and pairs that the program takes."""

    blocks: int = 4_194_304
    pairs: int = 67_108_864


def convert(paths: Iterable[Path], folder: Path, limits: Limits = Limits()) -> dict[str, Any]:
    """Writes mine.upit, mine.prec and mine.blocks, as far as their sources are among `paths`, and convert.json.

    Gives the record: for each file what was read, scaled, rounded and dropped, and `notes` in sentences. Raises
    MinelibError, with nothing written, where a file cannot be converted exactly except for the roundings that it reports.
    """
    sources = sorted_by_kind(list(paths))
    demand_apart(sources, folder)
    record: dict[str, Any] = {"sources": {kind: str(path) for kind, path in sources.items()}, "notes": []}
    try:
        folder.mkdir(parents=True, exist_ok=True)
        stage = Path(tempfile.mkdtemp(prefix=".minelib-", dir=folder))
        try:
            write(sources, stage, limits, record)
            write_lines(stage / RECORD, [json.dumps(record, indent=2, ensure_ascii=False)])
            for path in sorted(stage.iterdir(), key=lambda it: it.name == RECORD):
                os.replace(path, folder / path.name)
        finally:
            shutil.rmtree(stage, ignore_errors=True)
    except OSError as error:
        raise MinelibError(f"{error.filename or folder}: cannot be written: {error.strerror or error}") from error
    return record


def sorted_by_kind(paths: list[Path]) -> dict[str, Path]:
    """One file each of a model, a precedence and a block model. Raises MinelibError where there are two, or another."""
    found: dict[str, Path] = {}
    for path in paths:
        ending = path.suffix.lower()
        if ending not in FORMATS:
            raise MinelibError(f"{path}: ends in none of {', '.join(FORMATS)}")
        kind = "model" if ending in MODELS else ending[1:]
        if kind in found:
            raise MinelibError(f"{path}: {found[kind]} is a {kind} already: convert one mine at a time")
        found[kind] = path
    if not found:
        raise MinelibError("no file to convert")
    return found


def demand_apart(sources: dict[str, Path], folder: Path) -> None:
    """Raises MinelibError where a file that is read would be written over."""
    for path in sources.values():
        for name in (MODEL, PREC, BLOCKS):
            if path.exists() and (folder / name).exists() and path.samefile(folder / name):
                raise MinelibError(f"{path}: would be written over: name another folder by --out")


def write(sources: dict[str, Path], stage: Path, limits: Limits, record: dict[str, Any]) -> None:
    counts: dict[str, int] = {}
    if "model" in sources:
        counts["model"] = write_model(sources["model"], stage, record)
    if "blocks" in sources:
        counts["blocks"] = write_blocks(sources["blocks"], stage, record)
    for kind, count in counts.items():
        if count > limits.blocks:
            raise MinelibError(f"{sources[kind]}: {count:,} blocks, and the program takes at most {limits.blocks:,}")
    if len(set(counts.values())) > 1:
        said = ", ".join(f"{sources[kind]} has {count:,}" for kind, count in counts.items())
        raise MinelibError(f"the files are not of one mine: {said} blocks")
    if "prec" in sources:
        write_prec(sources["prec"], stage, limits, next(iter(counts.values()), None), record)


def write_model(path: Path, stage: Path, record: dict[str, Any]) -> int:
    """Gives the number of blocks."""
    model = models.read(path)
    fitted = fit(model.values)
    # A field of the name ends it for no reader: blanks in it are kept as they are.
    head = [f"NAME: {model.name}", "TYPE: UPIT", f"NBLOCKS: {len(model.values)}", "OBJECTIVE_FUNCTION:"]
    write_lines(stage / MODEL, head, (f"{block} {text}" for block, text in enumerate(fitted.texts())))
    record["model"] = {
        "name": model.name,
        "type": model.kind,
        "blocks": len(model.values),
        "destinations": model.destinations,
        "blocks_without_value": model.unnamed,
        "lines_passed_over": model.passed_over,
        **fitted.as_json(),
    }
    notes = record["notes"]
    if model.kind != "UPIT":
        notes.append(
            f"{path.name} is a {model.kind}: its pit alone is asked for, without periods, capacities or discount"
        )
    if model.destinations > 1:
        notes.append(f"of {model.destinations} destinations a block takes the one of greatest value")
    if model.unnamed:
        notes.append(f"WARNING: {model.unnamed:,} blocks have no value in {path.name}, and take 0")
    notes += fitted.note("values")
    return len(model.values)


def write_blocks(path: Path, stage: Path, record: dict[str, Any]) -> int:
    """Gives the number of blocks."""
    model = block_models.read(path)
    write_lines(stage / BLOCKS, model.texts())
    record["blocks"] = {
        "blocks": len(model.places[0]),
        "x_y_z_multiplied_by": [f"1e{power}" if power else "1" for power in model.powers],
        "columns": [{"column": k, **column.as_json()} for k, column in enumerate(model.attributes)],
        "codes": {str(column): texts for column, texts in model.codes.items()},
    }
    notes = record["notes"]
    for column, texts in model.codes.items():
        notes.append(f"column {column} holds texts, {len(texts):,} of them, written as numbers: codes in {RECORD}")
    for column, fitted in enumerate(model.attributes):
        notes += fitted.note(f"numbers of column {column}")
    if len({fitted.power for fitted in model.attributes}) > 1:
        notes.append("WARNING: columns are multiplied by different powers: revenue and cost must be of the same")
    return len(model.places[0])


def write_prec(path: Path, stage: Path, limits: Limits, count: Optional[int], record: dict[str, Any]) -> None:
    read = precedence.read(path, count, limits.blocks)
    pairs = read.pairs
    notes = record["notes"]
    if pairs > limits.pairs:
        read = replace(read, needs=precedence.reduced(read.needs))
        if read.pairs > limits.pairs:
            raise MinelibError(
                f"{path}: {pairs:,} pairs, {read.pairs:,} without those that others lead to, "
                f"and the program takes at most {limits.pairs:,}"
            )
        notes.append(
            f"{pairs - read.pairs:,} of {pairs:,} pairs were left out, since other pairs lead to the same need"
        )
    write_lines(stage / PREC, read.texts())
    record["prec"] = {
        "pairs_read": pairs,
        "pairs_written": read.pairs,
        "needs_named_twice": read.twice,
        "blocks_that_named_themselves": read.themselves,
        "lines_joined": read.joined,
    }
    said = (
        (read.twice, "needs stood twice and count once"),
        (read.themselves, "blocks named themselves, which says nothing"),
        (read.joined, "lines were of a block that had one already, and were joined with it"),
    )
    notes += [f"{number:,} {words}" for number, words in said if number]


def write_lines(path: Path, *parts: Iterable[str]) -> None:
    with open(path, "w", encoding="utf-8", newline="\n") as file:
        for part in parts:
            file.writelines(f"{text}\n" for text in part)
