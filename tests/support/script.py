"""What each script has: its words, its end, and waiting for what is to happen."""

import argparse
import os
import signal
import subprocess
import sys
import time

NAME = os.path.basename(sys.argv[0])
# What a script ends with that cannot run here.
SKIPPED = 77


class Failed(Exception):
    """Something is not as it is to be."""


class Skipped(Exception):
    """The script cannot run here."""


def fail(what):
    raise Failed(what)


def skip(why):
    raise Skipped(why)


def until(what, condition, limit=30, more=lambda: ""):
    """Waits until the condition holds, and returns its value; fails where that takes longer than the limit in seconds."""
    end = time.monotonic() + limit
    while True:
        found = condition()
        if found:
            return found
        if time.monotonic() > end:
            fail(f"after {limit} s it is not so that {what}\n{more()}".strip())
        time.sleep(0.05)


def sleep_to(moment):
    """Waits until the clock shows this time: for what is done in time, and not to wait for what another does."""
    time.sleep(max(0.0, moment - time.time()))


def ended(*_):
    raise SystemExit(130)


def script(doc, tries, *arguments, quick=True, built=True):
    """Runs a script: `tries` is given its words, among them `quick`. Ends with status 0, with 1 where something is not so, and with 77 where it cannot
    run here. `arguments` are pairs of what `add_argument` takes."""
    words = argparse.ArgumentParser(description=doc, formatter_class=argparse.RawDescriptionHelpFormatter)
    if quick:
        words.add_argument("--quick", action="store_true", help="the short form, which the gate runs")
    for names, given in arguments:
        words.add_argument(*names, **given)
    asked = words.parse_args()
    signal.signal(signal.SIGTERM, ended)
    try:
        if built:
            # The first run may build the program, and says so.
            from .programs import PDC

            if subprocess.run([*PDC, "--help"], stdout=subprocess.DEVNULL, check=False).returncode:
                fail(f"{' '.join(PDC)} does not run")
        tries(asked)
    except Skipped as why:
        print(f"tests/{NAME}: {why}", file=sys.stderr)
        sys.exit(SKIPPED)
    except Failed as what:
        print(f"tests/{NAME}: {what}", file=sys.stderr)
        sys.exit(1)
    except KeyboardInterrupt:
        sys.exit(130)
