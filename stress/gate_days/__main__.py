"""`python3 -m stress.gate_days GATEWAY [STEP..]`: days of a built gateway, side by side.

Each step has a gateway, clients and markets of its own, and prints a line on standard error: what it shows, and what was
wanted and came where that differs. All that has to come is waited for as long as a busy machine may need; what mustn't
come early is compared strictly. A step that is wrong though the machine gave this program no processor for two seconds
meanwhile is made again, up to three times. One that needs what the machine refuses is left out, and says so. The status
is 0 where no step is wrong. With names, those alone are made."""
import os
import sys
import tempfile
import threading
import time
import traceback
from collections import Counter
from concurrent.futures import ThreadPoolExecutor, as_completed

from .command_line import STEPS_OF_COMMANDS
from .counted_days import STEPS_OF_COUNTED_DAYS
from .crowd import STEPS_OF_CROWDS
from .links import STEPS_OF_LINKS
from .promptness import STEPS_OF_PROMPTNESS
from .script_days import STEPS_OF_SCRIPTS
from .stage import Addresses, LeftOut, Stage, Wrong
from .telling import STEPS_OF_TELLING

# the longest first, so that the others go on beside them
STEPS = (STEPS_OF_TELLING + STEPS_OF_COUNTED_DAYS + STEPS_OF_CROWDS + STEPS_OF_LINKS + STEPS_OF_COMMANDS
         + STEPS_OF_SCRIPTS + STEPS_OF_PROMPTNESS)
AT_ONCE = 6
TRIES = 3


class Machine:
    """Notes when this program last had no processor for two seconds."""

    def __init__(self):
        self.stood_still = 0.0
        threading.Thread(target=self.watch, daemon=True).start()

    def watch(self):
        while True:
            before = time.monotonic()
            time.sleep(0.05)
            if time.monotonic() - before > 2:
                self.stood_still = time.monotonic()


def made_again(step, program, addresses, machine):
    """Makes a step, and again where it is wrong and the machine stood still meanwhile."""
    for _ in range(TRIES):
        begin = time.monotonic()
        lines, how = made(step, program, addresses)
        if how != "WRONG" or machine.stood_still < begin:
            break
        lines.append("       the machine stood still meanwhile")
    return lines, how


def made(step, program, addresses):
    """Makes a step: what to print of it, and whether it is right."""
    begin, wrong, left_out, told = time.monotonic(), None, None, []
    with tempfile.TemporaryDirectory() as folder:
        stage = Stage(program, addresses, folder)
        try:
            step(stage)
        except Wrong as it:
            wrong, told = str(it), stage.told()
        except LeftOut as it:
            left_out = str(it)
        except Exception:  # whatever else ends a step is wrong too
            wrong, told = traceback.format_exc().strip(), stage.told()
        stage.clear()
    what = " ".join(step.__doc__.split())
    how = "WRONG" if wrong else "left out" if left_out else "right"
    lines = [f"{how}  {step.__name__} ({time.monotonic() - begin:.1f} s): {what}"]
    lines += [f"       {it}" for it in (wrong, left_out) if it] + [f"       told: {it}" for it in told]
    return lines, how


def main():
    program, names, begin = os.path.abspath(sys.argv[1]), sys.argv[2:], time.monotonic()
    steps = [it for it in STEPS if not names or it.__name__ in names]
    if not os.access(program, os.X_OK) or not steps:
        print(f"no gateway at {program}, or no such step", file=sys.stderr)
        return 2
    addresses, machine, ways = Addresses(), Machine(), Counter()
    with ThreadPoolExecutor(AT_ONCE) as pool:
        for done in as_completed([pool.submit(made_again, step, program, addresses, machine) for step in steps]):
            lines, how = done.result()
            print("\n".join(lines), file=sys.stderr, flush=True)
            ways[how] += 1
    sums = f"{ways['right']} right, {ways['WRONG']} wrong, {ways['left out']} left out"
    print(f"days of the gateway: {sums}, in {time.monotonic() - begin:.0f} s", file=sys.stderr)
    return 1 if ways["WRONG"] else 0


if __name__ == "__main__":
    sys.exit(main())
