# Replaces values that QEMU and its firmware choose by names: `sed -E -f normalise.sed`.
s/I\/O ports at [0-9a-f]+/I\/O ports at PORT/
s/Memory at [0-9a-f]+/Memory at ADDRESS/
s/routed to IRQ [0-9]+/routed to IRQ NUMBER/
s/\[io  0x[0-9a-f]+-0x[0-9a-f]+/[io  PORTS/
s/\[mem 0x[0-9a-f]+-0x[0-9a-f]+/[mem ADDRESSES/
s/at I\/O 0x[0-9a-f]+ \(irq = [0-9]+/at I\/O PORT (irq = NUMBER/
s/Port: 0x[0-9a-f]+, IRQ: 0/Port: PORT, IRQ: 0/
s/^0x0{8}[0-9a-f]{8}$/ADDRESS/
