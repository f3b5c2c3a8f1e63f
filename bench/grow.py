"""Writes a bid text of N bids: grow.py single|multi few|many N. The same text for the same words."""
import random
import sys

kind, winners, n = sys.argv[1], sys.argv[2], int(sys.argv[3])
random.seed(f"{kind} {winners} {n}")
week = 10080
length = week // 8 if winners == "few" else max(2, 4 * week // n)
print(f"(tender {kind} 0 {week})")
for i in range(n):
    price = random.randrange(500, 1500)
    if kind == "single":
        start = max(0, i - 2) * (week - length) // (n - 3)
        windows = [(start, start + length)]
    else:
        part = max(1, length // 2)
        first = min(week - part, i * week // n)
        windows = [(first, first + part)]
        other = random.randrange(0, week - part + 1)
        windows.append((other, other + part))
    if i < 2:
        windows, price = [(0, week)], 90000000
    print(f"(bid {i + 1} {price} " + " ".join(f"({s} {e})" for s, e in windows) + ")")
