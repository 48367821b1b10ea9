/* A 16450 whose registers are cells. The code that makes the driver's accesses changes the
 * registers, and calls this file after each. */
#include "uart.h"
#include "machine.h"

enum { DIVISOR_ACCESS = 0x80, ON_DATA = 1, ON_EMPTY = 2, HAS_DATA = 1, IS_EMPTY = 0x60, NO_CAUSE = 1, EMPTY_CAUSE = 2,
       DATA_CAUSE = 4 };

/* The part of the function that contains a cell. */
static uint32_t part_of(unsigned cell)
{
    return cell < HIDDEN ? 0 : PCIGUEST_PART_CONFIG;
}

static uint8_t get(const struct uart *uart, unsigned cell)
{
    if (uart->is_console)
        return uart->own[cell];
    return (uint8_t)machine_cells(uart->machine, uart->slot, part_of(cell), cell, 1);
}

static void set(struct uart *uart, unsigned cell, uint8_t value)
{
    if (uart->is_console)
        uart->own[cell] = value;
    else
        machine_set_cells(uart->machine, uart->slot, part_of(cell), cell, 1, value);
}

void uart_write(struct uart *uart, unsigned offset, uint8_t value)
{
    static const uint8_t writable[] = {0xff, 0x0f, 0, 0xff, 0x1f, 0, 0, 0xff};

    uart->own[offset] = (uint8_t)((uart->own[offset] & ~writable[offset]) | (value & writable[offset]));
}

uint8_t uart_read(const struct uart *uart, unsigned offset)
{
    return uart->own[offset];
}

/* If the driver has switched between the divisor and the other contents of cells 0 and 1, swaps
 * them with what is hidden. */
static void choose_cells(struct uart *uart)
{
    uint8_t chosen = get(uart, LINE_CONTROL) & DIVISOR_ACCESS;

    if (chosen == get(uart, IS_DIVISOR))
        return;
    set(uart, IS_DIVISOR, chosen);
    for (unsigned cell = 0; cell < 2; cell++) {
        uint8_t shown = get(uart, cell);

        set(uart, cell, get(uart, HIDDEN + cell));
        set(uart, HIDDEN + cell, shown);
    }
}

/* Shows in the registers what was received and what may be sent, and requests an interrupt if the
 * driver wants one. */
void uart_settle(struct uart *uart)
{
    unsigned hidden = get(uart, IS_DIVISOR) ? HIDDEN : 0;
    uint8_t enables = get(uart, hidden + ENABLES), has_data = get(uart, COUNT) > 0 ? HAS_DATA : 0, cause = NO_CAUSE;

    if (has_data && enables & ON_DATA)
        cause = DATA_CAUSE;
    else if (enables & ON_EMPTY)
        cause = EMPTY_CAUSE;
    set(uart, hidden + DATA, has_data ? get(uart, QUEUE + get(uart, FIRST)) : 0);
    set(uart, LINE_STATUS, IS_EMPTY | has_data);
    set(uart, CAUSE, cause);
    if (uart->is_console)
        machine_line(uart->machine, CONSOLE_LINE, cause != NO_CAUSE);
    else
        machine_interrupt(uart->machine, uart->slot, cause != NO_CAUSE);
}

bool uart_is_sound(const struct uart *uart)
{
    return get(uart, FIRST) < QUEUE_LENGTH && get(uart, COUNT) <= QUEUE_LENGTH;
}

static void queue(struct uart *uart, uint8_t byte)
{
    uint8_t count = get(uart, COUNT);

    if (count == QUEUE_LENGTH)
        return; /* an overrun: the byte is lost */
    set(uart, QUEUE + (get(uart, FIRST) + count) % QUEUE_LENGTH, byte);
    set(uart, COUNT, count + 1);
}

bool uart_receive(struct uart *uart, uint8_t byte)
{
    bool has_room = get(uart, COUNT) < QUEUE_LENGTH;

    queue(uart, byte);
    uart_settle(uart);
    return has_room;
}

/* What a function sends is received again, as if its plug were looped back. */
static void send(struct uart *uart, uint8_t byte)
{
    if (uart->is_console)
        machine_print(uart->machine, byte);
    else
        queue(uart, byte);
}

static void take_next(struct uart *uart)
{
    uint8_t count = get(uart, COUNT);

    if (count == 0)
        return;
    set(uart, COUNT, count - 1);
    set(uart, FIRST, (uint8_t)((get(uart, FIRST) + 1) % QUEUE_LENGTH));
}

void uart_touched(struct uart *uart, unsigned offset, bool is_write)
{
    if (offset == DATA && !get(uart, IS_DIVISOR)) {
        if (is_write)
            send(uart, get(uart, DATA));
        else
            take_next(uart);
    } else if (offset == LINE_CONTROL && is_write) {
        choose_cells(uart);
    }
    uart_settle(uart);
}
