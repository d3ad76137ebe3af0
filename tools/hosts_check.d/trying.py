# SPDX-License-Identifier: Apache-2.0
"""Tries parts in turn, and says what came of each."""

import sys
import time

from programs import PROGRAMS, Fault, LeftOut


def attempt(call):
    """Tries a part: what came of it, and what is to be said of that."""
    try:
        return "passed", call()
    except LeftOut as why:
        return "LEFT OUT", str(why)
    except Fault as fault:
        return "FAILED", str(fault)


def stop(number, _frame):
    """Ends for a signal, with all that was started."""
    PROGRAMS.stop()
    sys.exit(128 + number)


def try_all(tool, tried):
    """Tries parts in turn, and answers the status."""
    outcomes = []
    for number, (name, call) in enumerate(tried.items(), 1):
        began = time.monotonic()
        outcome, told = attempt(call)
        outcomes.append(outcome)
        seconds = time.monotonic() - began
        more = f": {told}" if told else ""
        print(f"{tool}: {number} of {len(tried)}: {name}, {seconds:.0f} s: {outcome}{more}", flush=True)
    failed = outcomes.count("FAILED")
    print(f"{outcomes.count('passed')} passed, {failed} failed")
    return 1 if failed else 0
