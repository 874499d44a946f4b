"""Writes a session of days that are alike, always the same for the same arguments.

usage: days.py DAYS PARTIES HOURS > FILE

A pool of so many parties; in each day so many of the 24 hours are allotted. In such an hour a quarter of the parties, the
same all day, are short and request, the others have a surplus and offer, each buyer has a deployment, and now and then
something of it is missed. In the other hours nothing is entered: what a day costs beside its allotted hours is its opening
and its close. No line is refused but a few misses.
"""
import random
import sys

DAYS_OF_MONTH = 300


def hour_lines(rnd, hour, parties, buyers):
    """The lines of an hour that is allotted."""
    for party in range(1, parties + 1):
        if party in buyers:
            yield f"R\t{hour}\t{party}\t{-rnd.randint(20, 60)}\n"
            yield f"C\t{hour}\t{party}\t{rnd.randint(5, 20)}\n"
        else:
            yield f"R\t{hour}\t{party}\t{rnd.randint(10, 80)}\n"
            yield f"V\t{hour}\t{party}\t{rnd.randint(0, 20)}\n"
    yield f"A\t{hour}\n"
    for buyer in buyers:
        yield f"E\t{hour}\t{buyer}\t{rnd.randint(0, 5)}\n"
        if rnd.random() < 0.05:
            yield f"F\t{hour}\t{rnd.randint(1, parties)}\t{buyer}\t{rnd.randint(0, 2)}\t{rnd.choice('CN')}\n"


def main():
    days, parties, hours = map(int, sys.argv[1:])
    rnd = random.Random(1)
    write = sys.stdout.write
    write(f"S\t{parties}\t10000000\t1530200\n")
    for day in range(1, days + 1):
        write(f"D\t{day}\tW\t{min(12, 1 + day // DAYS_OF_MONTH)}\n")
        write(f"P\t{day}\t{rnd.randint(1500, 9000)}\t{rnd.randint(1000, 6000)}\n")
        write(f"H\t1\t24\t{rnd.randint(-500, 12000)}\t{rnd.randint(8000, 20000)}\n")
        buyers = rnd.sample(range(1, parties + 1), max(1, parties // 4))
        for hour in sorted(rnd.sample(range(1, 25), hours)):
            for line in hour_lines(rnd, hour, parties, buyers):
                write(line)
        write("Z\n")


main()
