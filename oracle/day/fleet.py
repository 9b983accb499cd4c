#!/usr/bin/env python3
"""Sheets of many cabinets over some days, drawn, for the command and for docs/TABLE.md.

    oracle/day/fleet.py FOLDER [CABINETS] [DAYS] [SEED]    2000 cabinets, 5 days and seed 1 where none is named

Writes FOLDER/CABINET/DATE.sheet and prints what was drawn. Some cabinets have a meter that is wrong every day by 8 to 15 spreads;
every day some others have one that is wrong that day, and some a slip of the hand in their sheet.
"""
import datetime
import os
import random
import sys


class Cabinet:
    """Two generators feed a main header, and that two others with two or three vessels each; some cabinets have a vent and a buffer."""

    def __init__(self, number, rng):
        self.name, self.rng = f"cabinet-{number:04d}", rng
        vessels = [f"vessel-{k + 1}" for k in range(rng.randrange(4, 7))]
        self.headers = {"north": vessels[:2], "south": vessels[2:]}
        self.meters = ["generator-A", "generator-B", "to-north", "to-south", *vessels]
        self.volume = {name: rng.uniform(200, 2000) for name in vessels}
        self.spread = {name: rng.choice((5, 8, 12.5, 20)) for name in self.meters}
        self.reading = {name: rng.randrange(1000000) for name in self.meters}
        self.vent, self.buffer = rng.random() < 0.3, rng.random() < 0.3
        self.wrong = rng.choice(self.meters) if rng.random() < 0.005 else None

    def flows(self):
        """What flowed, and sums to nothing at each header; and what the buffer lost."""
        flow = {name: volume * self.rng.uniform(0.9, 1.1) for name, volume in self.volume.items()}
        flow |= {f"to-{header}": sum(flow[name] for name in vessels) for header, vessels in self.headers.items()}
        vent, lost, share = self.rng.uniform(0, 20) * self.vent, self.rng.uniform(-30, 30) * self.buffer, self.rng.uniform(0.3, 0.7)
        total = flow["to-north"] + flow["to-south"] + vent - lost
        return {**flow, "generator-A": share * total, "generator-B": (1 - share) * total}, lost

    def sheet(self, date, count):
        flow, lost = self.flows()
        wrong = self.wrong or (self.rng.choice(self.meters) if self.rng.random() < 0.01 else None)
        count["meters wrong"] += bool(wrong)
        lines = [f"title {self.name}, {date} (m3)"]
        for name in self.meters:
            off = self.rng.choice((-1, 1)) * self.rng.uniform(8, 15) if name == wrong else self.rng.gauss(0, 1)
            old = self.reading[name]
            self.reading[name] = (old + max(0, round(flow[name] + off * self.spread[name]))) % 1000000
            lines.append(f"meter {name:12} {old:06d} {self.reading[name]:06d} {self.spread[name]}")
        lines += ["line vent 40"] * self.vent
        if self.buffer:
            before = self.rng.uniform(200, 400)
            lines.append(f"stock buffer {before:.1f} {before - lost + self.rng.gauss(0, 4):.1f} 4")
        lines.append(f"balance main generator-A generator-B{' buffer' * self.buffer} = to-north to-south{' vent' * self.vent}")
        lines += [f"balance {header} to-{header} = {' '.join(vessels)}" for header, vessels in self.headers.items()] + ["tolerance 0.001", ""]
        if self.rng.random() < 0.002:
            count["slips of the hand"] += 1
            lines[1] = lines[1].replace(" 0", " O", 1) if " 0" in lines[1] else lines[1] + " m3"
        return "\n".join(lines)


def main():
    if not 2 <= len(sys.argv) <= 5 or not all(word.isdecimal() for word in sys.argv[2:]):
        sys.exit(__doc__)
    cabinets, days, seed = [int(word) for word in sys.argv[2:]] + [2000, 5, 1][len(sys.argv) - 2:]
    count, wrong = {"sheets": 0, "meters wrong": 0, "slips of the hand": 0}, []
    for number in range(cabinets):
        cabinet = Cabinet(number, random.Random(f"fleet {seed} {number}"))
        wrong += [f"{cabinet.name} {cabinet.wrong}"] * bool(cabinet.wrong)
        os.makedirs(os.path.join(sys.argv[1], cabinet.name), exist_ok=True)
        for day in range(days):
            date = datetime.date(2026, 4, 13) + datetime.timedelta(day)
            with open(os.path.join(sys.argv[1], cabinet.name, f"{date}.sheet"), "w") as out:
                out.write(cabinet.sheet(date, count))
            count["sheets"] += 1
    print(", ".join(f"{number} {what}" for what, number in count.items()))
    print("wrong every day:", ", ".join(wrong))


main()
