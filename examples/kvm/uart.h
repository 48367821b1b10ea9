/* A 16450 serial port whose registers are cells. The console's cells are the machine's own; a function's are the board's. The
 * device keeps nothing else, so the guest's image contains all of it. */
#ifndef UART_H
#define UART_H

#include <stdbool.h>
#include <stdint.h>

struct machine;

/* Cells 0 to 7 are the registers. The driver can't write those from 40h on, which a function has in configuration space. */
enum cell { DATA, ENABLES, CAUSE, LINE_CONTROL, MODEM_CONTROL, LINE_STATUS, MODEM_STATUS, SCRATCH,
            HIDDEN = 0x40, /* two: the divisor or, while the driver sees that, the other contents of cells 0 and 1 */
            IS_DIVISOR = 0x42, /* whether cells 0 and 1 show the divisor */
            FIRST = 0x43, COUNT = 0x44, /* of the bytes that were received but not read yet */
            QUEUE = 0x80, QUEUE_LENGTH = 0x80, CELLS = 0x100 };

struct uart {
    struct machine *machine;
    bool is_console;
    uint64_t slot;      /* its function's slot, unless it is the console */
    uint8_t own[CELLS]; /* the console's cells */
};

/* Writes or reads a register of the console, as its driver does. The console is at reset if all cells except two are 0. */
void uart_write(struct uart *uart, unsigned offset, uint8_t value);
uint8_t uart_read(const struct uart *uart, unsigned offset);

/* Acts after the driver wrote or read a register: sends, goes on to the next byte that it received, and reports whether it
 * requests an interrupt. */
void uart_touched(struct uart *uart, unsigned offset, bool is_write);

/* Shows in the registers what came in and what may be sent, and requests an interrupt if the driver wants one. */
void uart_settle(struct uart *uart);

/* Returns whether the cells that only the device writes hold what it can have written. An image may hold anything else. */
bool uart_is_sound(const struct uart *uart);

/* Receives a byte; returns false if there is no room for it. */
bool uart_receive(struct uart *uart, uint8_t byte);

#endif
