"""The news of each day, for the feed: what became broken in which cell, and what ended."""

import uuid
from collections.abc import Sequence

from debcheck_tools.page_history import Cell, History, Json
from debcheck_tools.page_names import cell_name

DAYS, NAMES = 30, 40

NEWS = """
SELECT date(began) AS day, began, suite, kind, architecture, text, what FROM (
    SELECT since AS run, cell, package, 'newly broken' AS what
    FROM broken JOIN cell ON cell.id = cell WHERE since != first
    UNION ALL
    SELECT until, cell, package, CASE is_gone WHEN 1 THEN 'gone' ELSE 'mended' END
    FROM broken WHERE until IS NOT NULL
)
JOIN run ON run.id = run JOIN cell ON cell.id = cell JOIN name ON name.id = package
WHERE date(began) > date(?, ?)
ORDER BY day DESC, suite, kind, architecture, what DESC, text
"""


def entry(day: str, rows: Sequence[tuple[str, ...]], identity: str) -> Json:
    """What the feed says of a day."""
    told: dict[tuple[str, str, str, str], list[str]] = {}
    for _, _, suite, kind, architecture, name, what in rows:
        told.setdefault((suite, kind, architecture, what), []).append(name)
    lines = []
    for (suite, kind, architecture, what), names in told.items():
        more = f" and {len(names) - NAMES} more" if len(names) > NAMES else ""
        label = cell_name(Cell(suite, kind, architecture))
        lines.append(f"{label}: {len(names)} {what}: {', '.join(names[:NAMES])}{more}")
    counts = {what: sum(row[6] == what for row in rows) for what in ("newly broken", "mended", "gone")}
    return {
        "title": f"{day}: " + ", ".join(f"{count} {what}" for what, count in counts.items() if count),
        "id": uuid.uuid5(uuid.NAMESPACE_URL, f"{identity} {day}").urn,
        "updated": max(row[1] for row in rows),
        "text": "\n".join(lines),
    }


def entries(history: History, began: str, cells: Sequence[Cell], identity: str) -> list[Json]:
    """An entry for each of the last days that has news of one of the cells, the last one first."""
    days: dict[str, list[tuple[str, ...]]] = {}
    for row in history.db.execute(NEWS, (began, f"-{DAYS} days")):
        if Cell(row[2], row[3], row[4]) in cells:
            days.setdefault(row[0], []).append(row)
    return [entry(day, rows, identity) for day, rows in days.items()]
