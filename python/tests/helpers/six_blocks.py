"""Six blocks of 1,000 t next to each other, one bench, of which a mill takes 800 or 1,000 t a year."""

import pandas as pd

SIX = """
[table]
file = "model.csv"
id = "id"
rock_type = "rock"
[grid]
size = [10, 10, 10]
[economics]
mining_cost = 1
processing_cost = 10
[[metals]]
name = "copper"
column = "cu"
unit = "percent"
price = 10000
recovery = 1
[slopes]
[[slopes.domains]]
pattern = "1:5"
[shells]
revenue_factors = [1]
discount_rate = 0.1
processing_capacity = 1000
mining_capacity = 2000
[pushbacks]
count = 1
ultimate_pit = 1
[schedule]
years = 3
"""
POOR = (2.0, 0.3, 0.3, 0.3, 0.3, 0.3)
RICH = (2.0, 1.8, 1.6, 1.4, 1.2, 1.0)


def six_blocks(tmp_path, grades, more="", *changes):
    """Writes the project of six blocks with these grades, more lines, and changes of its text; gives its path."""
    text = SIX
    for old, new in changes:
        assert old in text, old
        text = text.replace(old, new)
    ids = [f"b{k}" for k in range(6)]
    table = pd.DataFrame({"id": ids, "x": [10 * k for k in range(6)], "y": 0, "z": 0, "tonnes": 1000, "cu": grades})
    table.assign(rock="A").to_csv(tmp_path / "model.csv", index=False)
    path = tmp_path / "project.toml"
    path.write_text(text + more)
    return path
