"""Mistyped words of the command line: the error names the subcommand, and the word that was probably meant."""

import pytest

from pitplan.cli import main

MISTYPED = {
    "a subcommand": (
        ["shels", "p.toml"],
        "pitplan: error: argument SUBCOMMAND: unknown choice shels: did you mean shells?",
    ),
    "an option": (
        ["audit", "out", "--rf", "1", "--quite"],
        "pitplan audit: error: unknown argument --quite: did you mean --quiet?",
    ),
    "an option of another": (
        ["shells", "p.toml", "--by=block"],
        "pitplan shells: error: unknown argument --by=block (see pitplan shells -h)",
    ),
    "a choice": (
        ["export", "out", "--to", "dxg"],
        "pitplan export: error: argument --to: unknown choice dxg: did you mean dxf?",
    ),
    "nothing near": (
        ["export", "out", "--to", "shapefile"],
        "pitplan export: error: argument --to: invalid choice: 'shapefile' (choose from",
    ),
    "one word too many": (["verify", "a", "b"], "pitplan verify: error: unknown argument b (see pitplan verify -h)"),
}


@pytest.mark.parametrize("name", MISTYPED)
def test_a_mistyped_word_is_named_with_the_one_that_was_meant(name, capsys):
    words, said = MISTYPED[name]
    with pytest.raises(SystemExit) as ended:
        main(words)
    assert ended.value.code == 2
    usage, *_, last = capsys.readouterr().err.splitlines()
    assert last.startswith(said) and usage.startswith(f"usage: {said.partition(':')[0]} ")


def test_no_word_at_all_prints_the_help(capsys):
    with pytest.raises(SystemExit) as ended:
        main([])
    assert ended.value.code == 2
    said = capsys.readouterr().out
    assert said.startswith("usage: pitplan ") and "Start with a block model: pitplan init model.csv" in said
    with pytest.raises(SystemExit):
        main(["-h"])
    assert capsys.readouterr().out == said
