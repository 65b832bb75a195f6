"""Runs of the program whose outcome was worked out by hand: the words, the files, and what is written where."""

from dataclasses import dataclass, field


@dataclass(frozen=True)
class Row:
    """A run over small files. `sources` names its inputs in the order in which they are opened and
    read, `made` the files that it writes, with None for one that must not be there."""

    name: str
    words: tuple[str, ...]
    files: dict[str, str]
    sources: tuple[tuple[str, str], ...]
    out: str = ""
    err: str = ""
    status: int = 0
    made: dict[str, str | None] = field(default_factory=dict)

    @property
    def is_shared(self) -> bool:
        return "shared" in self.words

    @property
    def workers(self) -> int:
        return int(self.words[self.words.index("--workers") + 1]) if self.is_shared else 0


MODES = {
    "single": (),
    "parts": ("--mode", "parts"),
    "shared 1": ("--mode", "shared", "--workers", "1"),
    "shared 2": ("--mode", "shared", "--workers", "2"),
    "shared 4": ("--mode", "shared", "--workers", "4"),
}


def model_of(values: list[str]) -> str:
    lines = "".join(f"{block} {value}\n" for block, value in enumerate(values))
    return f"NAME: t\nTYPE: UPIT\nNBLOCKS: {len(values)}\nOBJECTIVE_FUNCTION:\n{lines}"


def pit_of(blocks: int, pit: list[int], worth: str) -> str:
    return f"PIT\nBLOCKS: {blocks}\nIN: {len(pit)}\nWORTH: {worth}\n" + "".join(f"{block}\n" for block in pit)


FOUR_PAIRS = "0 2 1 3\n2 1 1\n"

# name, values, precedence, pit, worth
SMALL_MINES: list[tuple[str, list[str], str, list[int], str]] = [
    ("no block", [], "", [], "0.000000"),
    ("a worthless block", ["0"], "", [], "0.000000"),
    ("ore that pays for waste", ["-3", "5"], "1 1 0\n", [0, 1], "2.000000"),
    ("a tie", ["-5", "5"], "1 1 0\n", [], "0.000000"),
    ("shared waste", ["-8", "5", "4"], "1 1 0\n2 1 0\n", [0, 1, 2], "1.000000"),
    ("two of three ores", ["4", "-2", "2", "-6", "5"], "0 2 1 3\n2 1 1\n4 1 1\n", [1, 2, 4], "5.000000"),
    ("one of two ores", ["-3", "-4", "10", "2"], "2 1 0\n3 2 0 1\n", [0, 2], "7.000000"),
    ("four blocks", ["1", "-2", "5", "-2"], FOUR_PAIRS, [1, 2], "3.000000"),
    ("four blocks that pay", ["4", "-2", "5", "-2"], FOUR_PAIRS, [0, 1, 2, 3], "5.000000"),
    ("an equal residual", ["4", "-2", "2", "-2"], FOUR_PAIRS, [0, 1, 2, 3], "2.000000"),
    ("nothing is worth digging", ["1", "-1", "1", "-1"], FOUR_PAIRS, [], "0.000000"),
    ("the greatest value", ["999999999999.999999"], "", [0], "999999999999.999999"),
]

SOLVE = ("solve", "--model", "mine.upit", "--prec", "mine.prec")
SOLVE_SOURCES = (("mine.upit", "model"), ("mine.prec", "precedence"))


def solve_rows() -> list[Row]:
    """Each small mine in each mode."""
    return [
        Row(f"solve {name}, {mode}", (*SOLVE, *more), {"mine.upit": model_of(values), "mine.prec": prec}, SOLVE_SOURCES, out=pit_of(len(values), pit, worth))
        for name, values, prec, pit, worth in SMALL_MINES
        for mode, more in MODES.items()
    ]


def certificate_rows() -> list[Row]:
    """A mine with one flow that shows its pit, so that the certificate is one text."""
    files = {"mine.upit": model_of(["-3", "5"]), "mine.prec": "1 1 0\n"}
    text = "PITCERT 1\nBLOCKS: 2\nARCS: 1\nIN: 2\n0\n1\nFLOW: 1\n1 0 5000000\n"
    return [
        Row(
            f"solve with a certificate, {mode}",
            (*SOLVE, *more, "--certificate", "made.cert"),
            files,
            SOLVE_SOURCES,
            out=pit_of(2, [0, 1], "2.000000"),
            made={"made.cert": text},
        )
        for mode, more in MODES.items()
    ]


def refused_rows() -> list[Row]:
    """The first fault of a model, of a precedence file, and a cycle; and a budget that is used up."""
    two = model_of(["1", "1"])
    faults = [
        (model_of(["1", "1.0000001"]), "", "error 6: not a decimal in model line 6\n"),
        ("NAME: t\n", "9\n", "error 12: ends early in model line 2\n"),
        (model_of(["1", "1", "1"]).replace("3\n", "5\n", 1), "", "error 12: ends early in model line 8\n"),
        (two, "1 1 7\n", "error 8: predecessor out of range in precedence line 1\n"),
        (two, "1 1 1\n", "error 9: block needs itself in precedence line 1\n"),
        (two, "1 2 0 0\n", "error 10: predecessor named twice in precedence line 1\n"),
        (two, "1 2 0\n", "error 11: wrong number of fields in precedence line 1\n"),
        (model_of(["1", "1", "1"]), "0 1 1\n1 1 2\n2 1 0\n", "error 14: cycle 0 1 2 in precedence\n"),
        # the walk leads from block 0 into the cycle
        (model_of(["1"] * 4), "0 1 1\n1 1 2\n2 1 1\n", "error 14: cycle 1 2 in precedence\n"),
    ]
    rows = [Row(f"solve refused: {err.strip()}", SOLVE, {"mine.upit": model, "mine.prec": prec}, SOLVE_SOURCES, err=err, status=1) for model, prec, err in faults]
    return rows


def budget_rows() -> list[Row]:
    """Budgets that are used up, and such as suffice, by one thread and by one worker."""
    wanted = [("ore that pays for waste", 0, 1), ("a worthless block", 0, 0), ("four blocks", 2, 3), ("four blocks that pay", 2, 3)]
    mines = {name: more for name, *more in SMALL_MINES}
    rows = []
    for name, most, needed in wanted:
        values, prec, pit, worth = mines[name]
        files = {"mine.upit": model_of(values), "mine.prec": prec}
        solved, used_up = pit_of(len(values), pit, worth), f"error 20: exhausted after {most} mergers\n"
        for mode in ("single", "shared 1"):
            words = (*SOLVE, *MODES[mode], "--budget")
            rows.append(Row(f"{name}, a budget that suffices, {mode}", (*words, str(needed)), files, SOLVE_SOURCES, out=solved))
            if most < needed:
                rows.append(Row(f"{name}, a used-up budget, {mode}", (*words, str(most)), files, SOLVE_SOURCES, err=used_up, status=3))
    return rows


SHELLS = ("shells", "--blocks", "mine.blocks", "--prec", "mine.prec", "--revenue", "0", "--cost", "1", "--factors")
SHELLS_SOURCES = (("mine.blocks", "blocks"), ("mine.prec", "precedence"))


TWO_ORES_BLOCKS = "0 0 0 0 0 3\n1 0 0 1 10 1\n2 0 0 1 10 8\n"
ONE_ORE = {"mine.blocks": "0 0 0 0 0 3\n1 0 0 1 10 1\n", "mine.prec": "1 1 0\n"}


def shells_rows() -> list[Row]:
    """Two ores below one block, of which the second is worth nothing at 800; in each mode; and what is refused."""
    files = {"mine.blocks": TWO_ORES_BLOCKS, "mine.prec": "1 1 0\n2 1 0\n"}
    text = "SHELLS\nBLOCKS: 3\nFACTORS: 3\n500 2 1.000000000\n800 2 4.000000000\n900 3 6.000000000\n0 500\n1 500\n2 900\n"
    rows = [Row(f"shells, {mode}", (*SHELLS, "500,800,900", *more), files, SHELLS_SOURCES, out=text) for mode, more in MODES.items()]
    negative = {"mine.blocks": "0 0 0 0 0 -3\n1 0 0 1 10 1\n", "mine.prec": "1 1 0\n"}
    rows.append(Row("shells of a negative cost", (*SHELLS, "5"), negative, SHELLS_SOURCES, err="error 15: negative value at block 0 in blocks\n", status=1))
    rows.append(Row("shells of factors that fall", (*SHELLS, "5,4"), files, (), err="error 19: factors not rising in factors item 2\n", status=1))
    return rows


def more_shells_rows() -> list[Row]:
    """Shells of one ore and of two hills; budgets, which count anew for each rest; and the order of what is refused."""
    two_hills = {"mine.blocks": "0 0 0 0 0 3\n1 0 0 1 10 1\n2 1 0 0 0 3\n3 1 0 1 10 6\n", "mine.prec": "1 1 0\n3 1 2\n"}
    one = "SHELLS\nBLOCKS: 2\nFACTORS: 3\n300 0 0.000000000\n400 0 0.000000000\n1000 2 6.000000000\n0 1000\n1 1000\n"
    hills = "SHELLS\nBLOCKS: 4\nFACTORS: 2\n500 2 1.000000000\n1000 4 7.000000000\n0 500\n1 500\n2 1000\n3 1000\n"
    of_one, of_hills = (*SHELLS, "300,400,1000"), (*SHELLS, "500,1000")
    rows = [Row(f"shells of one ore, {mode}", (*of_one, *more), ONE_ORE, SHELLS_SOURCES, out=one) for mode, more in MODES.items()]
    used_up = "error 20: exhausted after 0 mergers\n"
    rows += [
        Row("shells of one ore, a budget of one", (*of_one, "--budget", "1"), ONE_ORE, SHELLS_SOURCES, out=one),
        Row("shells of one ore, a used-up budget", (*of_one, "--budget", "0"), ONE_ORE, SHELLS_SOURCES, err=used_up, status=3),
        Row("shells of two hills, a budget of one", (*of_hills, "--budget", "1"), two_hills, SHELLS_SOURCES, out=hills),
        Row("shells of no factor", (*SHELLS, ""), ONE_ORE, (), err="error 5: not a whole number in factors item 1\n", status=1),
        Row("shells of half a list", (*SHELLS, "300,"), ONE_ORE, (), err="error 5: not a whole number in factors item 2\n", status=1),
        Row("shells past the limit", (*SHELLS, "100001"), ONE_ORE, (), err="error 4: over the limit in factors item 1\n", status=1),
    ]
    cost = "0 0 0 0 0 -3\n1 0 0 1 10 1\n"
    refused = [
        ("0 0 0 0 0 -3\n1 0 0 1 10\n", "9\n", "error 11: wrong number of fields in blocks line 2\n"),
        (cost, "9\n", "error 11: wrong number of fields in precedence line 1\n"),
        (cost, "0 1 1\n1 1 0\n", "error 14: cycle 0 1 in precedence\n"),
        ("0 0 0 0 7\n1 0 0 1 10\n", "1 1 0\n", "error 16: no column 1 in blocks\n"),
        ("0 0 0 0 0 3\n", "1 1 0\n", "error 7: id out of place in precedence line 1\n"),
    ]
    for blocks, prec, err in refused:
        files = {"mine.blocks": blocks, "mine.prec": prec}
        rows.append(Row(f"shells refused: {err.strip()}", (*SHELLS, "5"), files, SHELLS_SOURCES, err=err, status=1))
    return rows


CHECK = ("check", "--model", "mine.upit", "--prec", "mine.prec", "--certificate", "some.cert")
CHECK_SOURCES = (*SOLVE_SOURCES, ("some.cert", "certificate"))


def check_rows() -> list[Row]:
    """A certificate that shows the pit, one that does not, and one whose counts differ."""
    mine = {"mine.upit": model_of(["1", "-2", "5", "-2"]), "mine.prec": FOUR_PAIRS}
    head = "PITCERT 1\nBLOCKS: 4\nARCS: 3\nIN: 2\n1\n2\n"
    good = head + "FLOW: 2\n0 3 1000000\n2 1 5000000\n"
    bad = head + "FLOW: 2\n0 3 1000000\n2 1 6000000\n"
    other = "PITCERT 1\nBLOCKS: 4\nARCS: 2\nIN: 2\n1\n2\nFLOW: 0\n"
    return [
        Row("check says yes", CHECK, {**mine, "some.cert": good}, CHECK_SOURCES, out="yes\n"),
        Row("check says no", CHECK, {**mine, "some.cert": bad}, CHECK_SOURCES, out="no\n", status=4),
        Row("check refuses", CHECK, {**mine, "some.cert": other}, CHECK_SOURCES, err="error 17: counts differ in certificate line 3\n", status=1),
    ]


def more_check_rows() -> list[Row]:
    """Another flow that serves, one that comes into the pit from outside, a set without excess; and the order of the files."""
    nine = {"mine.upit": model_of(["1", "-2", "5", "-2"]), "mine.prec": FOUR_PAIRS}
    five = {"mine.upit": model_of(["-5", "5"]), "mine.prec": "1 1 0\n"}
    head = "PITCERT 1\nBLOCKS: 4\nARCS: 3\nIN: 2\n1\n2\n"
    two, both = "PITCERT 1\nBLOCKS: 2\nARCS: 1\n", "FLOW: 1\n1 0 5000000\n"
    answered = [
        ("another flow", nine, head + "FLOW: 2\n0 3 2000000\n2 1 5000000\n", "yes"),
        ("flow from outside", nine, head + "FLOW: 3\n0 1 1000000\n0 3 1000000\n2 1 5000000\n", "no"),
        ("a set without excess", five, two + "IN: 2\n0\n1\n" + both, "no"),
        ("the empty set", five, two + "IN: 0\n" + both, "yes"),
    ]
    rows = [
        Row(f"check, {name}", CHECK, {**mine, "some.cert": text}, CHECK_SOURCES, out=f"{told}\n", status=0 if told == "yes" else 4)
        for name, mine, text, told in answered
    ]
    wrong = {"some.cert": "PITCERT 2\n"}
    refused = [
        ({"mine.upit": "NAME: t\n", "mine.prec": "0 1 0\n"}, "error 12: ends early in model line 2\n"),
        ({**five, "mine.prec": "0 1 0\n"}, "error 9: block needs itself in precedence line 1\n"),
        ({**five, "mine.prec": "0 1 1\n1 1 0\n"}, "error 14: cycle 0 1 in precedence\n"),
    ]
    return rows + [Row(f"check refused: {err.strip()}", CHECK, {**mine, **wrong}, CHECK_SOURCES, err=err, status=1) for mine, err in refused]


def journal_of(blocks: int, arcs: int, budget: str, *entries: str) -> str:
    lines = "".join(f"{entry}\n" for entry in entries)
    return f"PITJOURNAL 1\nBLOCKS: {blocks}\nARCS: {arcs}\nBUDGET: {budget}\nENTRIES: {len(entries)}\n{lines}"


def journal_rows() -> list[Row]:
    """One worker on a mine with one merger arc, so that the journal is one text; with a certificate too, and with a budget."""
    files = {"mine.upit": model_of(["-3", "5"]), "mine.prec": "1 1 0\n"}
    certificate = "PITCERT 1\nBLOCKS: 2\nARCS: 1\nIN: 2\n0\n1\nFLOW: 1\n1 0 5000000\n"
    one = {"made.journal": journal_of(2, 1, "none", "1 0 1")}
    pit = pit_of(2, [0, 1], "2.000000")
    words = (*SOLVE, *MODES["shared 1"], "--journal", "made.journal")
    wrong = {**files, "mine.prec": "1 1 1\n"}
    return [
        Row("solve with a journal", words, files, SOLVE_SOURCES, out=pit, made=one),
        Row(
            "solve with a journal and a certificate",
            (*words, "--certificate", "made.cert"),
            files,
            SOLVE_SOURCES,
            out=pit,
            made={**one, "made.cert": certificate},
        ),
        Row(
            "solve with a journal and a budget that suffices",
            (*words, "--budget", "1"),
            files,
            SOLVE_SOURCES,
            out=pit,
            made={"made.journal": journal_of(2, 1, "1", "1 0 1")},
        ),
        Row(
            "solve with a journal refused",
            words,
            wrong,
            SOLVE_SOURCES,
            err="error 9: block needs itself in precedence line 1\n",
            status=1,
            made={"made.journal": None},
        ),
    ]


REPLAY = ("replay", "--model", "mine.upit", "--prec", "mine.prec", "--journal", "some.journal")
REPLAY_SOURCES = (*SOLVE_SOURCES, ("some.journal", "journal"))


def replay_rows() -> list[Row]:
    """A journal that leads to the pit, one that says something else, one that stops, one that used its budget up, and one refused."""
    nine = {"mine.upit": model_of(["1", "-2", "5", "-2"]), "mine.prec": FOUR_PAIRS}
    ten = {"mine.upit": model_of(["4", "-2", "5", "-2"]), "mine.prec": FOUR_PAIRS}

    def row(name: str, mine: dict[str, str], journal: str, out: str = "", err: str = "", status: int = 0) -> Row:
        return Row(f"replay {name}", REPLAY, {**mine, "some.journal": journal}, REPLAY_SOURCES, out, err, status)

    used_up = "error 20: exhausted after 2 mergers\n"
    return [
        row("to the pit", nine, journal_of(4, 3, "none", "1 0 1", "2 2 1", "1 1 1"), pit_of(4, [1, 2], "3.000000")),
        row("differs", nine, journal_of(4, 3, "none", "1 0 1", "2 2 2", "1 1 1"), "entry 2 differs\n", status=4),
        row("stops", ten, journal_of(4, 3, "none", "1 0 1", "2 2 2", "1 1 1"), "open after 2 mergers\n", status=4),
        row("uses its budget up", nine, journal_of(4, 3, "2", "0 0 1", "0 2 1", "0 1 3"), err=used_up, status=3),
        row("refused", nine, journal_of(4, 3, "none", "1 3 1"), err="error 7: id out of place in journal line 6\n", status=1),
    ]


FIXED = (*SOLVE, "--fixed", "mine.fixed")
FIXED_SOURCES = (*SOLVE_SOURCES, ("mine.fixed", "fixed"))
CLASH = "error 21: fixed blocks clash at block 1\n"


def two_ores(fixed: str, **more: str) -> dict[str, str]:
    """A mine of which the second ore does not pay for its waste, with fixed blocks."""
    return {"mine.upit": model_of(["-3", "-4", "10", "2"]), "mine.prec": "2 1 0\n3 2 0 1\n", "mine.fixed": fixed, **more}


def fixed_rows() -> list[Row]:
    """Blocks forced in and barred, in each mode; fixed blocks that clash; and a budget for a rest without pairs."""
    all_four = pit_of(4, [0, 1, 2, 3], "5.000000")
    cases = [
        ("none", "", pit_of(4, [0, 2], "7.000000")),
        ("ore forced in", "in 3\n", all_four),
        ("waste barred", "out 0\n", pit_of(4, [], "0.000000")),
        ("waste forced in, ore barred", "in 1\nout 3\n", pit_of(4, [0, 1, 2], "3.000000")),
    ]
    rows = [
        Row(f"fixed, {name}, {mode}", (*FIXED, *more), two_ores(fixed), FIXED_SOURCES, out=out)
        for name, fixed, out in cases
        for mode, more in MODES.items()
    ]
    rows += [Row(f"fixed, a clash, {mode}", (*FIXED, *more), two_ores("out 1\nin 3\n"), FIXED_SOURCES, err=CLASH, status=1) for mode, more in MODES.items()]
    budget = ("--budget", "0")
    rows += [
        Row(f"fixed, a budget of nothing, {mode}", (*FIXED, *MODES[mode], *budget), two_ores("in 3\n"), FIXED_SOURCES, out=all_four)
        for mode in ("single", "shared 1")
    ]
    return rows


def fixed_file_rows() -> list[Row]:
    """What is written and read beside fixed blocks: certificates of the whole mine, journals of the rest."""
    # block 0 is forced in, and ore worth 5 lies below waste that costs 3
    mine = {"mine.upit": model_of(["-1", "-3", "5"]), "mine.prec": "2 1 1\n", "mine.fixed": "in 0\n"}
    pit = pit_of(3, [0, 1, 2], "1.000000")
    certificate = "PITCERT 2\nBLOCKS: 3\nARCS: 1\nFORCED: 1\n0\nBARRED: 0\nIN: 3\n0\n1\n2\nFLOW: 1\n2 1 5000000\n"
    journal = journal_of(2, 1, "none", "1 0 1")
    words = (*FIXED, *MODES["shared 1"], "--journal", "made.journal", "--certificate", "made.cert")
    whole = "PITCERT 2\nBLOCKS: 4\nARCS: 3\nFORCED: 1\n3\nBARRED: 0\nIN: 4\n0\n1\n2\n3\nFLOW: 0\n"
    check = ("check", *FIXED[1:], "--certificate", "some.cert")
    check_sources = (*FIXED_SOURCES, ("some.cert", "certificate"))
    replay = ("replay", *FIXED[1:], "--journal", "some.journal")
    replay_sources = (*FIXED_SOURCES, ("some.journal", "journal"))
    differ = "error 17: counts differ in certificate line 4\n"
    return [
        Row("fixed, with a certificate and a journal", words, mine, FIXED_SOURCES, out=pit, made={"made.cert": certificate, "made.journal": journal}),
        Row("fixed, check says yes", check, two_ores("in 3\n", **{"some.cert": whole}), check_sources, out="yes\n"),
        Row("fixed, check without them", CHECK, two_ores("in 3\n", **{"some.cert": whole}), CHECK_SOURCES, err=differ, status=1),
        Row("fixed, replay", replay, {**mine, "some.journal": journal}, replay_sources, out=pit),
    ]


GREATEST = ("--pit", "greatest")
NOTHING_LEFT = "error 20: exhausted after 0 mergers\n"


def greatest_solve_rows() -> list[Row]:
    """The greatest pit, where the least one is smaller and where it is the same, and budgets; in each mode."""
    none = {"mine.upit": model_of([]), "mine.prec": ""}
    worthless = {"mine.upit": model_of(["0"]), "mine.prec": ""}
    tie = {"mine.upit": model_of(["-5", "5"]), "mine.prec": "1 1 0\n"}
    zero = pit_of(1, [0], "0.000000")
    solved = [
        ("no block", SOLVE, none, SOLVE_SOURCES, pit_of(0, [], "0.000000")),
        ("a worthless block", SOLVE, worthless, SOLVE_SOURCES, zero),
        ("a tie", SOLVE, tie, SOLVE_SOURCES, pit_of(2, [0, 1], "0.000000")),
        ("a tie whose ore is barred", FIXED, {**tie, "mine.fixed": "out 1\n"}, FIXED_SOURCES, pit_of(2, [], "0.000000")),
        ("ore forced in", FIXED, two_ores("in 3\n"), FIXED_SOURCES, pit_of(4, [0, 1, 2, 3], "5.000000")),
    ]
    rows = [
        Row(f"greatest, {name}, {mode}", (*words, *more, *GREATEST), files, sources, out=out)
        for name, words, files, sources, out in solved
        for mode, more in MODES.items()
    ]
    nothing = (*GREATEST, "--budget", "0")
    for mode in ("single", "shared 1"):
        rows += [
            Row(f"greatest, a budget that suffices, {mode}", (*SOLVE, *MODES[mode], *nothing), worthless, SOLVE_SOURCES, out=zero),
            Row(f"greatest, a budget of nothing, {mode}", (*SOLVE, *MODES[mode], *nothing), tie, SOLVE_SOURCES, err=NOTHING_LEFT, status=3),
        ]
    return rows


def greatest_shells_rows() -> list[Row]:
    """The same of shells, which take a block that costs nothing."""
    shells = "SHELLS\nBLOCKS: 2\nFACTORS: 3\n300 0 0.000000000\n400 2 0.000000000\n1000 2 6.000000000\n0 400\n1 400\n"
    words = (*SHELLS, "300,400,1000")
    rows = [Row(f"greatest shells, {mode}", (*words, *more, *GREATEST), ONE_ORE, SHELLS_SOURCES, out=shells) for mode, more in MODES.items()]
    ores = {"mine.blocks": TWO_ORES_BLOCKS, "mine.prec": "1 1 0\n2 1 0\n"}
    of_ores = "SHELLS\nBLOCKS: 3\nFACTORS: 3\n500 2 1.000000000\n800 3 4.000000000\n900 3 6.000000000\n0 500\n1 500\n2 800\n"
    free = {"mine.blocks": "0 0 0 0 0 0\n1 0 0 1 0 2\n", "mine.prec": ""}
    of_free = "SHELLS\nBLOCKS: 2\nFACTORS: 2\n0 1 0.000000000\n500 1 0.000000000\n0 0\n"
    left = "SHELLS\nBLOCKS: 2\nFACTORS: 2\n0 0 0.000000000\n500 0 0.000000000\n"
    for mode, more in MODES.items():
        rows += [
            Row(f"greatest shells of two ores, {mode}", (*SHELLS, "500,800,900", *more, *GREATEST), ores, SHELLS_SOURCES, out=of_ores),
            Row(f"greatest shells of a free block, {mode}", (*SHELLS, "0,500", *more, *GREATEST), free, SHELLS_SOURCES, out=of_free),
            Row(f"least shells of a free block, {mode}", (*SHELLS, "0,500", *more), free, SHELLS_SOURCES, out=left),
        ]
    for mode in ("single", "shared 1"):
        more = (*MODES[mode], *GREATEST, "--budget", "0")
        rows.append(Row(f"greatest shells, a budget of nothing, {mode}", (*words, *more), ONE_ORE, SHELLS_SOURCES, err=NOTHING_LEFT, status=3))
    return rows


def greatest_rows() -> list[Row]:
    return [*greatest_solve_rows(), *greatest_shells_rows()]


def all_rows() -> list[Row]:
    solved = [*solve_rows(), *certificate_rows(), *journal_rows(), *refused_rows(), *budget_rows()]
    shells = [*shells_rows(), *more_shells_rows()]
    checked = [*check_rows(), *more_check_rows()]
    return [*solved, *shells, *checked, *replay_rows(), *fixed_rows(), *fixed_file_rows(), *greatest_rows()]


def few_rows() -> list[Row]:
    """One row of each kind and mode, for the gate."""
    wanted = {"four blocks", "an equal residual"}
    solved = [row for row in solve_rows() if any(row.name.startswith(f"solve {name},") for name in wanted)]
    refused = [row for row in refused_rows() if any(f"error {number}:" in row.name for number in (9, 10, 14))]
    budgets = [row for row in budget_rows() if row.name.startswith("four blocks that pay, a used-up")]
    names = ("ore forced in", "a clash")
    fixed = [row for row in fixed_rows() if any(row.name == f"fixed, {name}, {mode}" for name in names for mode in ("single", "shared 2"))]
    greatest = [row for row in greatest_rows() if any(row.name == f"{name}, {mode}" for name in ("greatest, a tie", "greatest shells") for mode in ("single", "shared 2"))]
    others = [*shells_rows(), *check_rows(), *journal_rows(), *replay_rows(), *fixed, *fixed_file_rows(), *greatest]
    return [*solved, *certificate_rows(), *refused, *budgets, *others]
