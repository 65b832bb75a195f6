"""Small deposits as mining packages export them, and the tables that a planner makes of these exports with pandas alone."""

from fractions import Fraction

import numpy as np
import pandas as pd

X0, Y0, Z0 = 412_000.0, 7_431_000.0, 3_200.0
SIZE = (20.0, 20.0, 15.0)
PACKAGES = ("vulcan", "datamine", "surpac", "leapfrog")


def deposit(seed=11, counts=(14, 12, 8)):
    """All cells, with air: a copper and gold body below a slope of weathered rock; without grades far from it."""
    rng = np.random.default_rng(seed)
    k, j, i = (axis.ravel() for axis in np.meshgrid(*map(np.arange, counts[::-1]), indexing="ij"))
    x, y, z = X0 + SIZE[0] * (i + 0.5), Y0 + SIZE[1] * (j + 0.5), Z0 + SIZE[2] * (k + 0.5)
    ground = Z0 + SIZE[2] * (counts[2] - 2.4) + 0.08 * (x - X0) - 0.05 * (y - Y0)
    share = np.clip((ground - (z - SIZE[2] / 2)) / SIZE[2], 0, 1).round(4)
    from_body = np.sqrt(((i - counts[0] / 2) / 4) ** 2 + ((j - counts[1] / 2) / 3.5) ** 2 + ((k - 2.5) / 3) ** 2)
    noise = np.exp(0.3 * rng.standard_normal(len(i)))
    known = from_body < 1.9
    return pd.DataFrame(
        {
            "i": i, "j": j, "k": k, "x": x, "y": y, "z": z, "share": share,
            "cu": np.where(known, (1.1 * np.exp(-(from_body**2)) * noise).round(4), np.nan),
            "au": np.where(known, (0.6 * np.exp(-(from_body**2)) * noise).round(4), np.nan),
            "density": np.where(ground - z < 25, 2.351, 2.65).round(3) + (rng.integers(0, 40, len(i)) / 1000).round(3),
            "rock": np.where(from_body < 1.2, "POR", "AND"),
            "sector": np.where(x < X0 + counts[0] * 10, 1, 2),
        }
    ).assign(density=lambda it: it["density"].round(3))  # fmt: skip


def turned(cells, azimuth):
    """The same on a grid whose north has this azimuth, around a corner, to a millimetre."""
    east, north = cells["x"] - X0, cells["y"] - Y0
    sine, cosine = np.sin(np.radians(azimuth)), np.cos(np.radians(azimuth))
    return cells.assign(x=(X0 + east * cosine + north * sine).round(3), y=(Y0 - east * sine + north * cosine).round(3))


def write(package, cells, path, air=False):
    """Writes an export. `air` keeps the cells above the ground where the package can have them."""
    {"vulcan": vulcan, "datamine": datamine, "surpac": surpac, "leapfrog": leapfrog}[package](cells, path, air)


def vulcan(cells, path, air):
    """Four header lines, -99 for absent data, air with it."""
    is_air = cells["share"] == 0
    frame = pd.DataFrame({"centroid_x": cells["x"], "centroid_y": cells["y"], "centroid_z": cells["z"]})
    frame = frame.assign(dim_x=SIZE[0], dim_y=SIZE[1], dim_z=SIZE[2], volume=SIZE[0] * SIZE[1] * SIZE[2])
    for name in ("cu", "au", "density"):
        frame[{"cu": "cu_ok", "au": "au_ok"}.get(name, name)] = cells[name].where(~is_air).fillna(-99)
    frame = frame.assign(
        litho=cells["rock"].where(~is_air, "air").str.lower(), geotech=cells["sector"].where(~is_air, 0)
    )
    frame = frame.assign(topo_pct=(cells["share"] * 100).round(2))
    frame = frame if air else frame[~is_air]
    head = [
        ",".join(frame.columns),
        "Variable descriptions:,,,,,,,Cu OK %,Au OK g/t,t/m3,lithology,domain,percent below topo",
        "Variable types:,double,double,double,double,double,double,double,double,double,name,integer,double",
        "Variable defaults:,0,0,0,0,0,0,-99,-99,-99,none,0,0",
    ]
    path.write_text("\n".join(head) + "\n" + frame.to_csv(index=False, header=False))


def datamine(cells, path, air):
    """Sub-cells: one below the ground, and two halves of each whole cell of the body; "-" for absent data."""
    solid = cells[cells["share"] > 0]
    height = (solid["share"] * SIZE[2] * 2).round().clip(lower=1) / 2
    frame = pd.DataFrame(
        {"IJK": solid.index, "XC": solid["x"], "YC": solid["y"], "ZC": solid["z"] - SIZE[2] / 2 + height / 2}
    )
    frame = frame.assign(
        XINC=SIZE[0], YINC=SIZE[1], ZINC=height, CU=solid["cu"], AU=solid["au"], DENSITY=solid["density"]
    )
    frame = frame.assign(ROCK=solid["rock"], GEOTECH=solid["sector"])
    halved = (height == SIZE[2]) & (solid["rock"] == "POR")
    lower, upper = frame[halved].copy(), frame[halved].copy()
    for half, side in ((lower, -1), (upper, 1)):
        half["ZINC"] = SIZE[2] / 2
        half["ZC"] += side * SIZE[2] / 4
    upper["CU"] = (upper["CU"] * 0.75).round(4)
    pd.concat([frame[~halved], lower, upper]).to_csv(path, index=False, na_rep="-")


def surpac(cells, path, air):
    """A preamble, Y before X, -99 for absent grades, the share of rock as a fraction."""
    solid = cells[cells["share"] > 0]
    frame = pd.DataFrame(
        {"Y": solid["y"], "X": solid["x"], "Z": solid["z"], "Y_SIZE": SIZE[1], "X_SIZE": SIZE[0], "Z_SIZE": SIZE[2]}
    )
    frame = frame.assign(
        au=solid["au"].fillna(-99), cu=solid["cu"].fillna(-99), sg=solid["density"], lith=solid["rock"]
    )
    frame = frame.assign(slope_domain=solid["sector"], percent_rock=solid["share"])
    path.write_text(
        "Surpac Block Model Export\nblock model: pit.mdl\nconstraints: none\n\n" + frame.to_csv(index=False)
    )


def leapfrog(cells, path, air):
    """Comments above the names, units in the names, empty fields for absent data, whole blocks."""
    solid = cells[cells["share"] > 0]
    frame = pd.DataFrame(
        {"I": solid["i"], "J": solid["j"], "K": solid["k"], "X": solid["x"], "Y": solid["y"], "Z": solid["z"]}
    )
    frame = frame.assign(
        **{
            "Cu %": solid["cu"],
            "Au ppm": solid["au"],
            "Density": solid["density"],
            "GM": solid["rock"],
            "sector": solid["sector"],
        }
    )
    path.write_text(
        f"# Block model: Pit\n# Base point: {X0} {Y0} {Z0}\n# Block size: 20.0 20.0 15.0\n" + frame.to_csv(index=False)
    )


def cleaned(package, path, corner=None):
    """What a planner makes of an export with pandas: x, y, z, tonnes, cu, au and sector, one row per block of rock.

    `corner` has x and y of the corner and the azimuth of a turned grid, which sub-cells need.
    """
    return {"vulcan": clean_vulcan, "datamine": clean_datamine, "surpac": clean_surpac, "leapfrog": clean_leapfrog}[
        package
    ](path, corner)


def clean_vulcan(path, corner):
    frame = pd.read_csv(path, skiprows=[1, 2, 3], float_precision="round_trip")
    frame = frame[frame["density"] != -99]
    tonnes = [
        grams(d, 20 * 20 * 15, Fraction(repr(p)) / 100)
        for d, p in zip(frame["density"], frame["topo_pct"].astype(float))
    ]
    return table(frame, ("centroid_x", "centroid_y", "centroid_z"), tonnes, ("cu_ok", "au_ok", "geotech"))


def clean_surpac(path, corner):
    frame = pd.read_csv(path, skiprows=4, float_precision="round_trip")
    tonnes = [grams(d, 20 * 20 * 15, Fraction(repr(float(p)))) for d, p in zip(frame["sg"], frame["percent_rock"])]
    return table(frame, ("X", "Y", "Z"), tonnes, ("cu", "au", "slope_domain"))


def clean_leapfrog(path, corner):
    frame = pd.read_csv(path, comment="#", float_precision="round_trip").fillna(0)
    tonnes = [grams(d, 20 * 20 * 15, 1) for d in frame["Density"]]
    return table(frame, ("X", "Y", "Z"), tonnes, ("Cu %", "Au ppm", "sector"))


def clean_datamine(path, corner):
    """Parents by their floors, tonnes as sums, grades as means by tonnes, all as fractions."""
    frame = pd.read_csv(path, na_values=["-"], float_precision="round_trip").fillna(0)
    sides = frame[["XINC", "YINC", "ZINC"]].astype(float)
    frame["t"] = [
        Fraction(grams(d, Fraction(repr(a)) * Fraction(repr(b)) * Fraction(repr(c)), 1)).limit_denominator(10**6)
        for d, a, b, c in zip(frame["DENSITY"], sides["XINC"], sides["YINC"], sides["ZINC"])
    ]
    frame["level"] = np.floor((frame["ZC"] - Z0) / SIZE[2]).astype(int)
    found = []
    for (x, y, level), parts in frame.groupby(["XC", "YC", "level"]):
        whole = sum(parts["t"])
        means = [
            float(round(sum(Fraction(repr(g)) * t for g, t in zip(parts[name], parts["t"])) / whole, 9))
            for name in ("CU", "AU")
        ]
        found.append((x, y, Z0 + SIZE[2] * (level + 0.5), float(whole), *means, parts["GEOTECH"].iloc[0]))
    return pd.DataFrame(found, columns=["x", "y", "z", "tonnes", "cu", "au", "sector"])


def grams(density, volume, share):
    """Tonnes to a gram, halves to the even one."""
    return float(round(Fraction(repr(float(density))) * Fraction(volume) * Fraction(share), 6))


def table(frame, places, tonnes, others):
    result = pd.DataFrame({axis: frame[name] for axis, name in zip("xyz", places)}).assign(tonnes=tonnes)
    for name, column in zip(("cu", "au", "sector"), others):
        result[name] = frame[column].replace(-99, 0)
    return result.reset_index(drop=True)
