#!/usr/bin/env python3
"""Expressions that take much stack, for stacks.c.

  deep.py SIZE           of up to SIZE bytes each: a line is one of them, a tab, and the one before it
  deep.py --wide SIZE    a line: two that ask for many bytes, each for others

Each is a level that is opened up to 64 times, round a chain that fills what is left.
"""
import itertools
import sys

# A level: what opens it, how many of the 64 levels it takes, and what closes it.
LEVELS = [("(", 1, ")"), ("!", 1, ""), ("!(", 2, ")"), ("ip||(", 1, ")"), ("2||(", 1, ")"), ("1=1&&(", 1, ")"), ("tcp&&ip||(", 1, ")"), ("ip[8]=1||(", 1, ")")]
# A chain: its first operand, and each further one.
CHAINS = [("port 1", "||2"), ("net 1", "&&2"), ("ip", "||ip"), ("1=1", "||1=1"), ("1=1", "+1"), ("1=-1", "*1"), ("ip[8]=1", "||ip[9]=1"), ("1=1", "+(1+(1+1))")]
# Chains in brackets and parentheses of values, which are levels too: what opens a level, the chain, and what closes the levels.
VALUES = [("ip[", "+1", "]"), ("(", "+1", ")"), ("1+(", "*1", ")"), ("ip[1+(", "+1", ")]"), ("-", "+1", "")]


def text_of(size, level, chain):
    """An expression of at most this size. A chain that inherits a qualifier also gives it to the levels that want one."""
    opens, takes, closes = level
    first, further = chain
    before = "port 9||" if opens.startswith("2") else ""
    count = min(64 // takes, (size - len(before) - len(first)) // len(opens + closes))
    room = size - len(before) - len(first) - count * len(opens + closes)
    return before + opens * count + first + further * (room // len(further)) + closes * count


def value_of(size, opens, further, closes):
    takes = sum(map(opens.count, "([-"))
    room = size - len("1=1") - (64 // takes) * len(opens + closes)
    return "1=" + opens * (64 // takes) + "1" + further * (room // len(further)) + closes * (64 // takes)


def texts(size):
    """Expressions of at most this size."""
    return [*(text_of(size, *each) for each in itertools.product(LEVELS, CHAINS)), *(value_of(size, *each) for each in VALUES)]


def words_from(offset, size):
    """An expression of at most this size that asks for as many words of the frame as it has room for, from an offset on."""
    terms = []
    while len("&&".join([*terms, term := f"ether[{offset}:4]={len(terms) + 1}"])) <= size:
        terms.append(term)
        offset += 4
    return "&&".join(terms)


if __name__ == "__main__":
    if sys.argv[1] == "--wide":
        size = int(sys.argv[2])
        made = [words_from(0, size), words_from(4000, size)]
        print("\t".join(made))
    else:
        made = texts(int(sys.argv[1]))
        for text, other in zip(made, ["ip", *made]):
            print(f"{text}\t{other}")
