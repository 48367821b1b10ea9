#!/usr/bin/python3 -B
"""Boots Linux, as Debian has it, in QEMU on random trees of its devices, and asks what it leaves.

    linux.py [--trees N] [--seed S] [--program PROGRAM]

No firmware has set anything up before: QEMU's qboot starts the kernel over functions at reset. Linux numbers all buses
(pci=assign-busses), and places all regions and windows; then the first process enables each function, as a driver of it
would. What stands in the registers then is asked as of EDK2 (edk2.py). The kernel and its first process are those of
examples/qemu, which examples/qemu/machine/build makes. Status 1 says that a boot went wrong, or that a byte differs by no
rule; the last lines count."""
import subprocess

import edk2
import places

MADE = places.TOP / "examples/qemu/out"
ENABLED = "all are enabled"
# the words of the first process: for each function that Linux found, what its driver would have Linux do
FIRST = (f"/bin/busybox mkdir -p /sys; /bin/busybox mount -t sysfs sys /sys; for at in /sys/bus/pci/devices/*; "
         f"do echo 1 > $at/enable; done; echo {ENABLED}; /bin/busybox sleep 1000")
APPEND = f'console=ttyS0 acpi=off no_timer_check pci=assign-busses rdinit=/bin/busybox -- sh -c "{FIRST}"'
LINUX = edk2.System(
    edk2.boot.Firmware("Linux", "/usr/share/qemu/qboot.rom", f"\n{ENABLED}\r\n", (), False),
    ["-machine", "pc,accel=tcg,acpi=off", "-m", "256"],
    ["-kernel", str(MADE / "vmlinuz"), "-initrd", str(MADE / "initrd"), "-append", APPEND],
    {"io": [0x1000, 0xFFFF], "mem": [0x10000000, 0xFEBFFFFF], "pref": [0x100000000, 0xFFFFFFFFFF], "devices": 32},
    edk2.EDK2.rules, 200)

if __name__ == "__main__":
    if not (MADE / "initrd").exists():
        subprocess.run([places.TOP / "examples/qemu/machine/build"], check=True)
    edk2.main(LINUX, __doc__)
