"""The plot of counts over time: its axes, its titles and its line."""

import xml.etree.ElementTree as ElementTree
from datetime import datetime, timedelta, timezone

import pytest

from debcheck_tools.page_plot import marks, plot

FIRST = datetime(2026, 11, 1, 6, tzinfo=timezone.utc)


def drawn(*counts: int) -> ElementTree.Element:
    points = [(FIRST + timedelta(days=day), count) for day, count in enumerate(counts)]
    return ElementTree.fromstring(plot(points, "sid <amd64>", "broken packages"))


def texts(svg: ElementTree.Element) -> list[str]:
    return [str(one.text) for one in svg.iter("text")]


def test_axes_and_titles() -> None:
    svg = drawn(745, 750, 731)
    assert svg.findtext("title") == svg.get("aria-label") == "sid <amd64>"
    assert svg.findtext("desc") == "broken packages: 745 on 2026-11-01, 731 on 2026-11-03"
    assert texts(svg) == ["730", "735", "740", "745", "750", "2026-11-01", "2026-11-02", "2026-11-03"] + [
        "broken packages",
        "day (UTC)",
    ]
    line = next(one for one in svg.iter("path") if one.get("class") == "line")
    assert line.get("d") == "M64.0 60.0H344.0V16.0H624.0V183.2"


@pytest.mark.parametrize("counts", [(0,), (7,), (0, 0), (3, 3, 3), (1, 100_000)])
def test_few_and_alike_counts(counts: tuple[int, ...]) -> None:
    svg = drawn(*counts)
    assert len(list(svg.iter("circle"))) == 1
    assert texts(svg)[-2:] == ["broken packages", "day (UTC)"]
    assert all(float(one.get("y2", "0")) <= 240 for one in svg.iter("line"))


def test_days_stand_within_the_plot() -> None:
    one, alike, several = drawn(7), plot([(FIRST, 7), (FIRST + timedelta(hours=1), 9)], "", ""), drawn(*range(9))
    for svg, anchors in ((one, ["start"]), (ElementTree.fromstring(alike), ["end"])):
        days = [one for one in svg.iter("text") if str(one.text).startswith("2026-")]
        assert [day.get("text-anchor") for day in days] == anchors
        assert [day.get("x") for day in days] == [{"start": "64.0", "end": "624.0"}[name] for name in anchors]
    days = [one for one in several.iter("text") if str(one.text).startswith("2026-")]
    assert [day.get("text-anchor") for day in days] == ["start", "middle", "middle", "end"]


def test_a_line_of_one_count_stands_above_the_axis() -> None:
    assert texts(drawn(745, 745))[:3] == ["744", "745", "746"]


def test_no_counts() -> None:
    assert plot([], "title", "what") == ""


@pytest.mark.parametrize("low, high", [(0, 0), (0, 1), (5, 6), (0, 17), (99, 101), (731, 750), (1, 76_808)])
def test_marks_hold_all_counts(low: int, high: int) -> None:
    found = marks(low, high)
    assert found[0] <= low and found[-1] >= high and 2 <= len(found) <= 7
    assert len({after - before for before, after in zip(found, found[1:])}) == 1
