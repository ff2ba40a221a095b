"""Tests that the front page's table of speed has the ratios, with their quartiles, of the runs that it names."""

import re

from running import TOP, Counts, fixture

RESULTS = ["bench/peers/results.md", "bench/peers/durable.md"]
RATIO = re.compile(r"(\d+\.?\d*)\*{0,2} \((\d+\.?\d*) to (\d+\.?\d*)\)")


@fixture
def tests():
    """What was checked: no program is run."""
    return Counts()


def is_rounded(shown, measured):
    """Whether each number that is shown is the measured one, with as many digits as are shown."""
    return all(f"{float(number):.{len(text.partition('.')[2])}f}" == text for text, number in zip(shown, measured))


def test_ratios(tests):
    page = (TOP / "README.md").read_text()
    table = page[page.index("## How fast"):]
    shown = RATIO.findall(table)
    tests.check("there are ratios", len(shown) > 10, shown)
    measured = [ratio for name in RESULTS for ratio in RATIO.findall((TOP / name).read_text())]
    for ratio in shown:
        tests.check(f"{ratio} was measured", any(is_rounded(ratio, each) for each in measured), ratio)


def test_the_run(tests):
    """The page says on which day, and in how many rounds."""
    table = (TOP / "README.md").read_text().partition("## How fast")[2]
    day, rounds = re.search(r"measured on (\d{4}-\d\d-\d\d)", table)[1], re.search(r"median of (\d+) rounds", table)[1]
    for name in RESULTS:
        made = (TOP / name).read_text()
        tests.check(f"{name} is of that day and has so many rounds", re.search(rf"^Made by .* on {day}, .* in {rounds} rounds\.", made, re.MULTILINE), made[:200])
