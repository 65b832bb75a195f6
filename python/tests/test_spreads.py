"""The audit's quantiles, and the rows of a price deck, worked by hand."""

import pandas as pd
import pytest

from planaudit.studies.spreads import at_prices, spread


def test_mean_ends_and_quantiles_between_two_amounts():
    found = {"mean": 2, "least": 1, "greatest": 3, "quantile_0.1": 1.2, "quantile_0.5": 2, "quantile_0.9": 2.8}
    assert spread([3, 1, 2]) == pytest.approx(found)
    assert set(spread([7.5]).values()) == {7.5}


def test_rows_of_a_price_deck_have_all_its_prices():
    rows = pd.DataFrame({"price_copper": [1, 1, 2, 2], "price_gold": [5, 6, 5, 6], "npv": [10, 20, 30, 40]})
    assert at_prices(rows, {"price_copper": 2, "price_gold": 5})["npv"].tolist() == [30]
    assert at_prices(rows, {"price_gold": 6})["npv"].tolist() == [20, 40]
    assert at_prices(rows, {})["npv"].tolist() == [10, 20, 30, 40]
