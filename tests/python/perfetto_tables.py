"""What Perfetto makes of a file in Chrome's trace event format: its tables, in SQLite, as far as queries of docs/VIEWER.md
need them."""

from __future__ import annotations

import sqlite3
from typing import Any

Event = dict[str, Any]
Row = tuple[int, int]  # of a process and a thread

TABLES = """
CREATE TABLE process (upid INTEGER PRIMARY KEY, pid INTEGER, name TEXT);
CREATE TABLE thread (utid INTEGER PRIMARY KEY, tid INTEGER, upid INTEGER, name TEXT);
CREATE TABLE thread_track (id INTEGER PRIMARY KEY, utid INTEGER, name TEXT);
CREATE TABLE slice (id INTEGER PRIMARY KEY, ts INTEGER, dur INTEGER, track_id INTEGER, category TEXT, name TEXT);
CREATE TABLE flow (id INTEGER PRIMARY KEY, slice_out INTEGER, slice_in INTEGER);
"""
NANOSECONDS = 1000  # of a microsecond


class Tables:
    """The tables, and the event of each slice. An end of an arrow belongs to the slice of its row that began last, and lasts.

    Slices of a row have to lie one inside of another, or apart, and each end of an arrow needs a slice.
    """

    def __init__(self, events: list[Event]) -> None:
        self.base = sqlite3.connect(":memory:")
        self.base.executescript(TABLES)
        self.slices: dict[int, Event] = {}
        self.open: dict[Row, list[int]] = {}
        self.began: dict[int, int] = {}
        named = [event for event in events if event["ph"] == "M"]
        for number, event in enumerate(one for one in named if one["name"] == "process_name"):
            self.insert("process", number, event["pid"], event["args"]["name"])
        self.tracks: dict[Row, int] = {}
        for number, event in enumerate(one for one in named if one["name"] == "thread_name"):
            self.tracks[event["pid"], event["tid"]] = number
            upid = self.base.execute("SELECT upid FROM process WHERE pid = ?", (event["pid"],)).fetchone()[0]
            self.insert("thread", number, event["tid"], upid, event["args"]["name"])
            self.insert("thread_track", number, number, None)
        for event in events:
            if event["ph"] != "M":
                self.add(event, (event["pid"], event["tid"]))

    def insert(self, table: str, *values: object) -> None:
        self.base.execute(f"INSERT INTO {table} VALUES ({', '.join('?' * len(values))})", values)

    def add(self, event: Event, row: Row) -> None:
        lasting = self.open.setdefault(row, [])
        while lasting and self.end(lasting[-1]) <= event["ts"]:
            lasting.pop()
        if event["ph"] == "X":
            number = len(self.slices)
            assert not lasting or event["ts"] + event["dur"] <= self.end(lasting[-1]), "slices that cross"
            self.slices[number] = event
            lasting.append(number)
            times = event["ts"] * NANOSECONDS, event["dur"] * NANOSECONDS
            self.insert("slice", number, *times, self.tracks[row], event["cat"], event["name"])
        elif event["ph"] == "s":
            assert event["id"] not in self.began
            self.began[event["id"]] = lasting[-1]
        else:
            self.insert("flow", event["id"], self.began.pop(event["id"]), lasting[-1])

    def end(self, number: int) -> int:
        return int(self.slices[number]["ts"]) + int(self.slices[number]["dur"])

    def arrows(self) -> list[tuple[Event, Event]]:
        """The slices at both ends of each arrow."""
        assert not self.began, "arrows without an end"
        found = self.base.execute("SELECT slice_out, slice_in FROM flow ORDER BY id").fetchall()
        return [(self.slices[out], self.slices[into]) for out, into in found]

    def ask(self, query: str) -> list[tuple[Any, ...]]:
        return self.base.execute(query).fetchall()
