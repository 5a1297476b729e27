"""Draws what a script of bench/ has measured, in the run that measured it: bars as an SVG, by gnuplot (gnuplot-nox).

A script takes `--pictures FOLDER` by `add_option`, and gives its figures to `bars`. Without the option, or where there
is no gnuplot, nothing is drawn. `python3 bench/pictures.py --test` tries it.
"""

import os
import shutil
import subprocess
import sys
import tempfile
import xml.etree.ElementTree

SCRIPT = """set terminal svg size {width},440 font "sans-serif,12" background "white"
set output "{path}"
set title "{title}"
set ylabel "{unit}"
set yrange [0:*]
set offsets 0,0,graph 0.08,0
set grid ytics lc rgb "gray80"
set style data histogram
set style histogram clustered gap 1
set style fill solid 0.75 border lt -1
set key {key}
$figures << END
{figures}
END
plot {plots}
"""


def add_option(parser):
    parser.add_argument("--pictures", metavar="FOLDER", help="draws the figures as SVG into this folder")


def quoted(text):
    return '"' + str(text).replace("\\", "").replace('"', "'").replace("_", "\\\\_") + '"'


def script_of(path, title, unit, rows):
    """What gnuplot is told: rows are pairs of a name and a mapping of what is compared to a number."""
    compared = list(dict.fromkeys(name for _, found in rows for name in found))
    number = lambda found, name: format(found[name], ".6g") if name in found else "?"
    lines = [" ".join([quoted(row), *(number(found, name) for name in compared)]) for row, found in rows]
    plots = []
    for place, name in enumerate(compared):
        # Where the bar of this one stands, in the group of its row.
        shift = (place - (len(compared) - 1) / 2) / (len(compared) + 1)
        plots.append(f"$figures using {place + 2}:xtic(1) title {quoted(name)}")
        plots.append(f"$figures using ($0 + {shift:.4f}):{place + 2}:{place + 2} with labels offset 0,0.6 notitle")
    longest = max(len(row) for row, _ in rows)
    width = 160 + len(rows) * max(60 * max(len(compared), 2), 8 * longest + 24)
    key = "outside bottom center horizontal" if len(compared) > 1 else "off"
    told = {"path": path, "title": title, "unit": unit, "width": width, "key": key}
    return SCRIPT.format(figures="\n".join(lines), plots=", \\\n     ".join(plots), **told)


def bars(folder, name, title, unit, rows):
    """Draws FOLDER/NAME.svg, a group of bars for each row. Nothing where no folder is given."""
    if not folder:
        return
    if not shutil.which("gnuplot"):
        print("there is no gnuplot: nothing is drawn", file=sys.stderr)
        return
    os.makedirs(folder, exist_ok=True)
    path = os.path.join(folder, f"{name}.svg")
    subprocess.run(["gnuplot"], input=script_of(path, title, unit, rows), text=True, check=True)
    print(path)


def test():
    rows = [("a Write", {"old_one": 83.25, "new": 120}), ("batches", {"new": 7.5})]
    with tempfile.TemporaryDirectory() as folder:
        bars(None, "none", "t", "u", rows)
        assert os.listdir(folder) == [], "nothing is drawn where no folder is given"
        bars(folder, "tried", "Uploads", "MB/s", rows)
        drawn = xml.etree.ElementTree.parse(os.path.join(folder, "tried.svg"))
        texts = {"".join(each.itertext()).strip() for each in drawn.iter() if each.tag.endswith("text")}
        for wanted in ["Uploads", "MB/s", "a Write", "batches", "old_one", "new", "83.25", "120", "7.5"]:
            assert wanted in texts, (wanted, texts)
    print("ok the picture has each name and each number")


if __name__ == "__main__":
    if sys.argv[1:] != ["--test"]:
        raise SystemExit(__doc__)
    test()
