#!/usr/bin/env python3
"""Attacks a program in each way that is known, and prints what each costs beside its bound.

It takes less than five minutes. It ends with 1 where a bound is passed that a guard is to keep; where no guard is there yet
that is said, and is no failure. The program wants to be at full speed (bench/unproved.sh). Where the machine has more to do,
--slow says how many seconds pass while the program has one of a processor. Linux and Python 3, standard library only.
Example:

    bench/attack/all.py OUT/wc_headless
"""
import guesses
import links
import server
import texts
import unread
from program import main

if __name__ == "__main__":
    main(links.ATTACKS + guesses.ATTACKS + unread.ATTACKS + texts.ATTACKS + server.ATTACKS)
