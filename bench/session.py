"""Writes a session of a pool of six parties, as realistic as it is long, always the same for the same arguments.

usage: session.py LINES [TIMES] > FILE

So many lines at least, in whole days. In each hour of a day prices are entered, a result for every party and an offer for
about half of them; all that TIMES times over (1 if left out), as forecasts are corrected. About 4 of 24 hours are short:
one party requests, the hour is allotted and some of it deployed, and sometimes some of that is missed. A year has 330
days, a month of it 28.
"""
import random
import sys

PARTIES = 6
DAYS_OF_YEAR = 330
DAYS_OF_MONTH = 28
LAST_DAY = 4000


def day_lines(rnd, day, times):
    """The lines of a day, from its opening to its close."""
    day_of_year = (day - 1) % DAYS_OF_YEAR
    if day_of_year == 0 and day > 1:
        yield "Y\n"
    yield f"D\t{day}\t{'S' if day % 7 == 0 else 'W'}\t{min(12, 1 + day_of_year // DAYS_OF_MONTH)}\n"
    yield f"P\t{day}\t{rnd.randint(1500, 9000)}\t{rnd.randint(1000, 6000)}\n"
    for hour in range(1, 25):
        buyer = rnd.randint(1, PARTIES) if rnd.random() < 4 / 24 else 0
        for _ in range(times):
            yield f"H\t{hour}\t{hour}\t{rnd.randint(-500, 12000)}\t{rnd.randint(8000, 20000)}\n"
            for party in range(1, PARTIES + 1):
                mw = -rnd.randint(10, 60) if party == buyer else rnd.randint(0, 80)
                yield f"R\t{hour}\t{party}\t{mw}\n"
                if party != buyer and rnd.random() < 0.5:
                    yield f"V\t{hour}\t{party}\t{rnd.randint(0, 30)}\n"
        if buyer:
            requested = rnd.randint(1, 10)
            yield f"C\t{hour}\t{buyer}\t{requested}\n"
            yield f"A\t{hour}\n"
            yield f"E\t{hour}\t{buyer}\t{rnd.randint(0, requested)}\n"
            if rnd.random() < 0.1:
                seller = rnd.randint(1, PARTIES)
                yield f"F\t{hour}\t{seller}\t{buyer}\t{rnd.randint(0, 2)}\t{rnd.choice('CN')}\n"
    yield "Z\n"


def main():
    wanted = int(sys.argv[1])
    times = int(sys.argv[2]) if len(sys.argv) > 2 else 1
    rnd = random.Random(1)
    sys.stdout.write(f"S\t{PARTIES}\t10000000\t1530200\n")
    written, day = 1, 0
    while written < wanted and day < LAST_DAY:
        day += 1
        lines = list(day_lines(rnd, day, times))
        sys.stdout.writelines(lines)
        written += len(lines)


main()
