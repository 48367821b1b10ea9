"""Saves guest a of a board, restores it, and lets it continue on another board: migrate.py BOARD
OTHER"""
import sys
from pciguest import Machine

here, there = map(Machine.load, sys.argv[1:])
a = here.guest("a")
a.config[0][0x14:4] = 0x80000000  # the guest works
a.config[0][4:2] = 2
a.memory[0x80000010:4] = 0x12345678

image = a.save()
a.reset_guest()  # everything is lost ..
print(f"{a.memory[0x80000010:4]:#010x}")
a.load(image)  # .. restore
there.guest("a").load(image)  # migrate
print(f"{there.guest('a').memory[0x80000010:4]:#010x}")
