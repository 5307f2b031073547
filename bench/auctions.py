#!/usr/bin/env python3
"""Prints the commands of PAGES pages for a call auction: 48 orders that rest and never trade, in three pages, and then pages
of 15 orders and the cross that clears them all. So 63 of the 64 orders that may rest do so at every cross, which makes 14 fills.

    auctions.py PAGES"""
import sys

RESTING = 24  # of each side
BUYS, SELLS = 8, 7  # of a page; the lots of both sides add up to the same
CHEAP, DEAR, MID = 5_000, 15_000, 10_000


class Numbers:
    """A linear congruence."""

    def __init__(self):
        self.seed = 1

    def below(self, n):
        self.seed = (self.seed * 6364136223846793005 + 1442695040888963407) % 2**64
        return (self.seed >> 32) * n >> 32


def order(numbers, side, price, lots):
    return f"enter {1 + numbers.below(1000)} {side} {price} {lots}"


def resting(numbers):
    for _ in range(RESTING):
        yield order(numbers, "buy", CHEAP - numbers.below(100), 5)
        yield order(numbers, "sell", DEAR + numbers.below(100), 5)


def auction(numbers):
    for _ in range(SELLS):
        yield order(numbers, "buy", MID + numbers.below(50), SELLS)
        yield order(numbers, "sell", MID - numbers.below(50), BUYS)
    yield order(numbers, "buy", MID + numbers.below(50), SELLS)
    yield "cross"


def main():
    pages = int(sys.argv[1])
    numbers = Numbers()
    lines = list(resting(numbers))
    while len(lines) < 16 * pages:
        lines += auction(numbers)
    print("\n".join(lines))


main()
