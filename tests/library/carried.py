"""As carried.c, over the module."""
import sys

from pciguest import Machine

with Machine.load(sys.argv[2]) as machine:
    if sys.argv[1] == "save":
        for line in ("host move a 1 b 9", "b cw 9 0x3c 1 0x0b"):
            print(machine.run_line(line), file=sys.stderr)
        sys.stdout.buffer.write(machine.save_all())
    else:
        machine.load_all(sys.stdin.buffer.read())
        for line in ("b cr 9 0x3c 1", "a cr 1 0 4"):
            print(machine.run_line(line), file=sys.stderr)
