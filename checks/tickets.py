#!/usr/bin/env python3
"""Checks that the rows of the ticket world (checks/rows/base.rows) are what its plain model (ticket_model.py) prints, so that what they
expect comes from the model alone; and that the model itself keeps the world's facts on many more lists.

  tickets.py [COUNT]   that many lists by the model alone, or 5,000

Uses the standard library alone.
"""

import sys
from pathlib import Path

import ticket_model

ROWS = Path(__file__).resolve().parent / "rows" / "base.rows"
KIND, WORKED = "tickets|", 2  # so many worked lists stand in front of the model's
LISTS = 5_000


def main():
    rows = [row.removeprefix(KIND) for row in ROWS.read_text(encoding="utf-8").splitlines() if row.startswith(KIND)]
    table = [row.replace("|", ";") for row in rows[WORKED:]]
    if table != ticket_model.table():
        sys.exit(f"tickets: the rows of {ROWS.name} are not what ticket_model.py prints")
    count = int(sys.argv[1]) if len(sys.argv) > 1 else LISTS
    ticket_model.table(count, ticket_model.SEED + 1)
    print(f"tickets: the {len(table)} lists are the model's, which keeps the world's facts on {count} more lists")


if __name__ == "__main__":
    main()
