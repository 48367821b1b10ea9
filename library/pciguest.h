/* pciguest: a PCI board, the firmware that drives it, and the guests to which its functions are
 * assigned.
 *
 * docs/library-c.md explains how to build and use the library; docs/PROOFS.md says what is proved
 * about it.
 *
 * Return values. Most calls return 0 or an error number (enum pciguest_status). The exceptions are
 * pciguest_version, pciguest_strerror, pciguest_piece and pciguest_ends_within, which return a
 * result, and pciguest_free and pciguest_board_free, which return nothing.
 *
 * Errors. A call that returns an error has changed nothing and stored nothing, with two exceptions.
 * If the buffer for a text or an image is too small, the call stores the required length, provided
 * that its comment says so. If pciguest_check refuses a board file, it still writes its text.
 * Any call can return the following errors, so a comment lists them only if it matters which error
 * is checked first: 901 if the struct is empty (not returned by calls that fill or free it); 902 if
 * a pointer is null (a pointer to bytes or to a buffer may be null if its length is 0); 909 if
 * another call is running on the struct.
 * If several errors apply, calls that take a guest, a slot and a part or a register (the calls
 * pciguest_raise, pciguest_region_* and pciguest_device_*) return the first of these: 902 for the
 * guest, then for the part; 302; 303 for bytes past the last offset of 64 bits, then for the slot;
 * 601; 303 for the register, then for the bytes. pciguest_take, pciguest_reset and pciguest_move
 * check 902, 303, 601 and 602 in this order. pciguest_give checks 902; 303 for the slot, then for
 * the path; 602 for the function, then for the slot; 206.
 *
 * Memory. Only calls whose comments list 199 or 299 allocate memory.
 *
 * Calls are declared only in this file. From the declarations and comments, tools/bindings
 * generates the calls themselves (library/calls.c, raw.h, words.c), which use the proved library;
 * the declarations in the Rust and Python modules; and the manual's sections on calls. A call has
 * existed since version 0.2.0 unless its comment names a later version.
 */
#ifndef PCIGUEST_H
#define PCIGUEST_H

#include <stdbool.h>
#include <stddef.h>
#include <stdint.h>

/* The version of this header and of the library that comes with it, as a text and as a number that
 * increases from version to version. */
#define PCIGUEST_VERSION "0.4.0-dev"
#define PCIGUEST_VERSION_NUMBER 400 /* 10000 * major + 100 * minor + patch */

#ifdef __cplusplus
extern "C" {
#endif

/* Holds a machine: a board that has been set up, and its guests. Initialize the struct with
 * `struct pciguest machine = PCIGUEST_INIT;` or set all its bytes to 0; the struct is then empty.
 * Only the library may read or write the struct's fields. You may move the struct to another
 * location if you never use the old location again. Never use two copies of the struct. Any thread
 * may make a call, but only one call can run on a struct at a time. A call that is made while
 * another one is running on the struct returns PCIGUEST_BUSY (909) and changes nothing;
 * pciguest_free, which returns no number, frees nothing then. */
struct pciguest {
    bool live;
    void *at;
};

#define PCIGUEST_INIT {false, NULL}

/* Holds a board that your firmware drives from reset. Once a line has handed the board over to its
 * guests, the struct holds the resulting machine. Initialize the struct with
 * `struct pciguest_board board = PCIGUEST_BOARD_INIT;` or set all its bytes to 0; the struct is
 * then empty. The rules for the fields, copies and calls of struct pciguest apply to this struct
 * too. */
struct pciguest_board {
    bool live;
    void *at;
};

#define PCIGUEST_BOARD_INIT {false, NULL}

/* The address space of an access, which determines what its `place` means: a byte offset in the
 * configuration space of the function in a slot, an I/O port, or a memory address. */
enum pciguest_space { PCIGUEST_CONFIG = 0, PCIGUEST_IO = 1, PCIGUEST_MEMORY = 2 };

/* The part of a function that a raise or a device's own access refers to: configuration space, or a
 * region. A region is identified by its base address register, 0 to 5. PCIGUEST_RAISE_CONFIG is the
 * name that PCIGUEST_PART_CONFIG had before 0.4.0. */
enum pciguest_part { PCIGUEST_PART_CONFIG = 6, PCIGUEST_RAISE_CONFIG = 6 };

/* Describes where a region of a guest's function is now, according to the guest's own registers. It
 * occupies `size` addresses of its space, starting at `first`, and responds to them while `is_open`
 * is 1. */
struct pciguest_region {
    uint64_t first;
    uint64_t size;
    uint32_t space;        /* PCIGUEST_IO or PCIGUEST_MEMORY */
    uint32_t prefetchable; /* 1 or 0 */
    uint32_t is_open;      /* 1 if the guest's Command enables the space, otherwise 0 */
};

/* Describes where a region of a guest is now, and where it was at the row's previous update. All
 * fields of `now` are 0 if there is no region now, and all fields of `before` are 0 if there was
 * none then. */
struct pciguest_place {
    struct pciguest_region now;
    struct pciguest_region before;
    uint32_t has_moved; /* 1 if `now` and `before` differ, otherwise 0 */
    uint32_t reserved;  /* 0 */
};

/* The largest number of regions that a guest can have: six for each of its slots. */
enum { PCIGUEST_PLACES = 192 };

/* Describes the byte that an access reaches. If the byte is in a region, `part` is the region's
 * first base address register, 0 to 5. If the byte is in configuration space, `part` is
 * PCIGUEST_PART_CONFIG. All fields are 0 if the access reaches nothing. */
struct pciguest_hit {
    uint64_t slot;
    uint64_t offset; /* in the region, or in configuration space */
    uint32_t part;
    uint32_t found; /* 1 if the access reaches anything, otherwise 0 */
};

/* Describes a vector of a function's MSI-X or MSI structure: the message (a 4-byte write to memory)
 * that the function sends for it, and whether the function may send the message now. If
 * `is_enabled` is 1 and `can_be_sent` is 0, the function keeps the message pending. A function may
 * use its interrupt pin only while both MSI Enable and MSI-X Enable are clear (PCI Local Bus 3.0,
 * 6.8.1.3 and 6.8.2.3), so that `is_enabled` is 0 doesn't mean that the pin may be used;
 * pciguest_set_interrupt says whether the pin is asserted. */
struct pciguest_message {
    uint64_t address;     /* where the message is written */
    uint32_t data;        /* what is written */
    uint32_t is_enabled;  /* 1 if MSI-X Enable (or, for MSI, MSI Enable) is set, otherwise 0 */
    uint32_t is_masked;   /* 1 if Function Mask or the vector's own mask bit is set, otherwise 0 */
    uint32_t can_be_sent; /* 1 if enabled and not masked, and the guest has set Bus Master */
};

/* Array sizes. PCIGUEST_PATH: the bytes for the text of a path, which uses at most 79 of them.
 * PCIGUEST_BARS: the base address registers of a function. PCIGUEST_WINDOWS: the windows of a
 * bridge. PCIGUEST_ROOM: the reserved fields of a struct, which are 0. A later version can use
 * reserved fields without changing the size of the struct. */
enum { PCIGUEST_PATH = 80, PCIGUEST_BARS = 6, PCIGUEST_WINDOWS = 3, PCIGUEST_ROOM = 4 };

/* Describes the region that begins at a base address register. Its address is the one in the
 * board's register, not in a guest's copy. It occupies `size` addresses of its space, starting at
 * `first`. All fields are 0 if no region begins at the register. */
struct pciguest_bar {
    uint64_t first;
    uint64_t size;
    uint32_t space;        /* PCIGUEST_IO or PCIGUEST_MEMORY */
    uint32_t prefetchable; /* 1 or 0 */
    uint32_t is_64_bit;    /* 1 if the next register holds the high half, otherwise 0 */
};

/* Describes a window of a bridge, as the bridge's registers on the board define it: the addresses
 * from `first` to `last`, inclusive. All fields are 0 if the bridge has no such window, or if the
 * base of the window is above its limit. */
struct pciguest_window {
    uint64_t first;
    uint64_t last;
    uint32_t is_there; /* 1 or 0 */
};

/* Describes the interrupt pin of a function, from 1 for INTA# to 4 for INTD#, and the device and
 * pin on the board's bus 0 to which it is routed. (On the guest's own bus, the pin isn't routed.)
 * On each bus except bus 0, the pin number advances by the device number, and 4 is followed by 1.
 * PCI-to-PCI Bridge Architecture 1.2, chapter 9.1, defines this rule for add-in cards; in pciguest,
 * the rule applies to every bridge. `pin`, `root_device` and `root_pin` are 0 if the function has
 * no pin. pciguest doesn't deliver interrupts. */
struct pciguest_interrupt {
    uint32_t pin;         /* the value of Interrupt Pin */
    uint32_t root_device; /* the device on the board's bus 0 */
    uint32_t root_pin;    /* that device's pin */
    uint32_t is_disabled; /* 1 or 0: Interrupt Disable, in the guest's copy if there is one */
};

/* Describes the current state of a function of the board. Its windows are in this order: I/O,
 * memory, prefetchable memory. */
struct pciguest_function {
    uint8_t path[PCIGUEST_PATH]; /* as in board files ("2.0/1.0"); the rest is 0 */
    size_t path_length;          /* in bytes, without a terminating 0 */
    uint32_t bus;                /* 0 on bus 0, else the Secondary Bus Number of the bridge above */
    uint32_t device;             /* 0 to 31 */
    uint32_t function;           /* 0 to 7 */
    uint32_t vendor_id;
    uint32_t device_id;
    uint32_t revision_id;
    uint32_t class_code;                        /* 24 bits: base class, subclass, interface */
    uint32_t subsystem_vendor_id;               /* 0 for a bridge */
    uint32_t subsystem_id;                      /* 0 for a bridge */
    uint32_t is_bridge;                         /* 1 or 0 */
    struct pciguest_bar regions[PCIGUEST_BARS]; /* by register; all 0 for a bridge */
    struct pciguest_window windows[PCIGUEST_WINDOWS]; /* by kind; all 0 for an endpoint */
    size_t guest;                        /* the index of its guest if `is_given` is 1, else 0 */
    uint64_t slot;                       /* its slot in that guest if `is_given` is 1, else 0 */
    uint32_t is_given;                   /* 1 if it is assigned to a guest, otherwise 0 */
    struct pciguest_interrupt interrupt; /* all 0 in struct pciguest_board_function */
    uint64_t reserved[PCIGUEST_ROOM];    /* 0 */
};

/* Describes a function of a board that firmware drives, according to its current registers. No
 * guest has it. The fields of `interrupt` are 0, because firmware reads the pin itself. */
struct pciguest_board_function {
    struct pciguest_function function; /* its bus is the bridge's current Secondary Bus Number */
    uint32_t is_found;                 /* 1 if an access to its BDF reaches it, otherwise 0 */
    uint32_t opens_io;                 /* 1 if its Command enables I/O space, otherwise 0 */
    uint32_t opens_memory;             /* 1 if its Command enables memory space, otherwise 0 */
    uint64_t reserved[PCIGUEST_ROOM];  /* 0 */
};

/* Gives the upper limits that hold for every board and machine. */
struct pciguest_limits {
    uint64_t guest_image; /* size of the largest possible image of a guest, in bytes */
    uint32_t functions;   /* endpoints and bridges of a board */
    uint32_t guests;      /* guests of a machine */
    uint32_t slots;       /* slots of a guest */
    uint32_t bars;        /* base address registers of an endpoint */
    uint32_t block;       /* register bytes of a region */
    uint32_t own_cells;   /* bytes of a function's own configuration registers, 40h to FFh */
    uint64_t reserved[PCIGUEST_ROOM]; /* 0 */
};

/* Buffer sizes in bytes. PCIGUEST_REPLY: the size that pciguest_run_line and
 * pciguest_board_run_line require for a reply. PCIGUEST_GUEST_NAME: a size that is enough for every
 * name. */
enum { PCIGUEST_REPLY = 48, PCIGUEST_GUEST_NAME = 16 };

/* The error numbers that calls return, each with its message; docs/errors.md explains them. 101 to
 * 112: the board file is refused. 201 to 205: the board can't be set up. 206, 207: functions can't
 * be assigned to guests. 301 to 303: an access or a path is refused. 602 also means that a guest
 * already has the function. 901 to 904: the struct or an argument isn't valid for the call. 905 to
 * 908: bytes can't be loaded as the image of a guest or of a machine. */
enum pciguest_status {
    PCIGUEST_OK = 0,
    PCIGUEST_NOT_TOML = 101,          /* board file is not valid TOML */
    PCIGUEST_BAD_KEY = 102,           /* required key is missing, or value has the wrong form */
    PCIGUEST_UNKNOWN_KEY = 103,       /* unknown key */
    PCIGUEST_BAD_NUMBER = 104,        /* number is out of range */
    PCIGUEST_BAD_PLACE = 105,         /* path is invalid, in use, or needs a missing function */
    PCIGUEST_BAD_REGISTER = 106,      /* BAR index is invalid or already used */
    PCIGUEST_BAD_SIZE = 107,          /* BAR or block size is invalid */
    PCIGUEST_TOO_MANY = 108,          /* too many functions, guests, slots or parts of a path */
    PCIGUEST_BAD_GUEST_NAME = 109,    /* guest name is invalid or already used */
    PCIGUEST_BAD_SLOT = 110,          /* slot names no endpoint, or one already in a slot */
    PCIGUEST_BAD_APERTURE = 111,      /* aperture is invalid or overlaps another */
    PCIGUEST_BAD_CELL_MASKS = 112,    /* rw or w1c pattern is invalid, or blocks overlap */
    PCIGUEST_FILE_MEMORY = 199,       /* out of memory while reading the board file */
    PCIGUEST_TOO_MANY_BUSES = 201,    /* board has more than 255 bridges */
    PCIGUEST_NO_IO_WINDOW = 202,      /* I/O BAR is behind a bridge without an I/O window */
    PCIGUEST_IO_POOL = 203,           /* I/O aperture is too small */
    PCIGUEST_MEMORY_POOL = 204,       /* memory aperture is too small */
    PCIGUEST_PREFETCHABLE_POOL = 205, /* prefetchable memory aperture is too small */
    PCIGUEST_CLOSED_REGION = 206,     /* decoding of an assigned function's BAR is disabled */
    PCIGUEST_NOT_IN_ORDER = 207,      /* audit found a problem in the registers */
    PCIGUEST_OUT_OF_MEMORY = 299,     /* out of memory */
    PCIGUEST_MISALIGNED = 301,        /* address is not a multiple of the width */
    PCIGUEST_BAD_WIDTH = 302,         /* access width is not 1, 2 or 4 (wide calls: 1 to 8) */
    PCIGUEST_OUT_OF_RANGE = 303,      /* slot, offset, port or path is out of range */
    PCIGUEST_EMPTY_SLOT = 601,        /* slot is empty */
    PCIGUEST_SLOT_TAKEN = 602,        /* slot already contains a function */
    PCIGUEST_NO_MACHINE = 901,        /* struct holds no machine or board */
    PCIGUEST_ARGUMENT = 902,          /* invalid argument */
    PCIGUEST_IN_USE = 903,            /* struct already holds a machine or board */
    PCIGUEST_NOT_AT_RESET = 904,      /* board has been written to since reset */
    PCIGUEST_BAD_IMAGE = 905,         /* not a valid image */
    PCIGUEST_OTHER_FUNCTIONS = 906,   /* image is for other functions */
    PCIGUEST_OTHER_BOARD = 907,       /* image is for another board */
    PCIGUEST_IMAGE_VERSION = 908,     /* unsupported image version */
    PCIGUEST_BUSY = 909               /* another call is running on this struct */
};

/* Error numbers that no call returns. 401 to 403 appear in replies to lines, and the others in the
 * program's last line. */
enum pciguest_told {
    PCIGUEST_NOT_READY = 208,     /* board is not ready for an operating system */
    PCIGUEST_REFUSED_LINE = 209,  /* a line was refused */
    PCIGUEST_BAD_LINE = 401,      /* malformed line */
    PCIGUEST_UNKNOWN_GUEST = 402, /* no guest has this name */
    PCIGUEST_LONG_LINE = 403,     /* line is longer than 200 bytes */
    PCIGUEST_READ_FAILED = 501,   /* cannot read standard input */
    PCIGUEST_WRITE_FAILED = 502,  /* cannot write standard output */
    PCIGUEST_USAGE = 701,         /* invalid command-line arguments */
    PCIGUEST_BOARD_FILE = 702,    /* cannot read the board file */
    PCIGUEST_WORD_MEMORY = 799    /* out of memory while reading the arguments */
};

/* Returns the version of the library that is linked or loaded, in the same form as
 * PCIGUEST_VERSION_NUMBER, which is the version of the header. Since 0.4.0. */
uint32_t pciguest_version(void);

/* Returns a null-terminated message that says what an error number means. The number can be one
 * that a call returns, or one that appears, with a shorter text, in a reply or in the program's
 * output. The message is valid as long as the library is loaded. For a number without a meaning,
 * such as 0, the message is empty. Since 0.4.0. */
const char *pciguest_strerror(uint32_t number);

/* Stores the upper limits that hold for every board and machine. Needs no machine. Since 0.4.0. */
uint32_t pciguest_limits(struct pciguest_limits *limits);

/* Creates a machine from the bytes of a board file: sets up the board and assigns its functions to
 * the guests that the file declares. The machine then contains what the file declares, and nothing
 * has accessed it yet.
 * Returns 0 on success; 101 to 112 or 201 to 205 for the first check that the file or its board
 * fails; 199 or 299 if memory runs out; 903 if the struct already holds a machine. */
uint32_t pciguest_new(struct pciguest *machine, const void *board, size_t length);

/* Frees the machine. The struct is then empty and can be used for a new machine. Does nothing if
 * the struct is already empty. */
void pciguest_free(struct pciguest *machine);

/* Finds a guest by name and stores its index, which other calls take as `guest`. Guests are
 * numbered from 0, in the order in which the board file declares them.
 * Returns 0 on success; 902 if no guest has this name. */
uint32_t pciguest_guest(struct pciguest *machine, const char *name, size_t length, size_t *guest);

/* Stores the number of guests that the machine has. Since 0.4.0. */
uint32_t pciguest_guest_count(struct pciguest *machine, size_t *count);

/* Writes the name of a guest, and stores its length in `needed`. The index of the guest must be
 * less than the count that pciguest_guest_count stores. The name isn't null-terminated. A buffer of
 * PCIGUEST_GUEST_NAME bytes is always large enough.
 * Returns 0 on success; 902 if the buffer is too small (only the length is stored), or if there is
 * no such guest (nothing is stored). Since 0.4.0. */
uint32_t pciguest_guest_name(struct pciguest *machine, size_t guest, char *text, size_t room,
                             size_t *needed);

/* Reads 1, 2 or 4 bytes as a guest. The location is a slot and offset, a port, or an address, as
 * the guest sees it. The value comes from the guest's own functions, each of which has its own
 * register file. If none of them responds, the value is all ones. A read changes nothing. `slot` is
 * used only in configuration space.
 * Returns 0 on success; 302 if the width isn't 1, 2 or 4; 301 if `place` isn't a multiple of the
 * width; 303 if the slot, offset or port is out of range; 902 if there is no such guest or
 * space. */
uint32_t pciguest_read(struct pciguest *machine, size_t guest, uint32_t space, uint64_t slot,
                       uint64_t place, uint32_t width, uint32_t *value);

/* Writes the low `width` bytes of a value as a guest. The location is a slot and offset, a port, or
 * an address, as the guest sees it. No other guest can observe the write. `slot` is used only in
 * configuration space.
 * Returns 0 on success; 302 if the width isn't 1, 2 or 4; 301 if `place` isn't a multiple of the
 * width; 303 if the slot, offset or port is out of range; 902 if there is no such guest or
 * space. */
uint32_t pciguest_write(struct pciguest *machine, size_t guest, uint32_t space, uint64_t slot,
                        uint64_t place, uint32_t width, uint32_t value);

/* Returns the size of the next piece of an access that is split into lawful accesses. The remaining
 * part of the access is `left` bytes long and begins at `place`. The size is 4, 2 or 1 bytes: the
 * largest of these that is at most `left` and that divides `place`. Since 0.3.0. */
static inline uint32_t pciguest_piece(uint64_t place, uint32_t left)
{
    return place % 4 == 0 && left >= 4 ? 4 : place % 2 == 0 && left >= 2 ? 2 : 1;
}

/* Returns whether an access of 1 to 8 bytes ends within its space. Since 0.3.0. */
static inline bool pciguest_ends_within(uint32_t space, uint64_t place, uint32_t width)
{
    uint64_t last = space == PCIGUEST_CONFIG ? 0xff
                    : space == PCIGUEST_IO   ? 0xffffffff
                                             : UINT64_MAX;

    return place <= last && width - 1 <= last - place;
}

/* Reads 1 to 8 bytes as a guest, at any alignment. The location is a slot and offset, a port, or an
 * address, as the guest sees it. A processor can make such an access in one step, but the bus may
 * need several cycles for it, so the call splits it as a bridge would: into the pieces that
 * pciguest_piece returns, in ascending order of addresses. The byte at the lowest address is the
 * lowest byte of the value.
 * Returns 0 on success; 302 if the width isn't 1 to 8; 303 if the access extends past the end of
 * its space, or if the slot is out of range; 902 if there is no such guest or space. The call
 * checks the width and the end of the access first, even before it checks for 901 and 902. Since
 * 0.3.0. */
uint32_t pciguest_read_wide(struct pciguest *machine, size_t guest, uint32_t space, uint64_t slot,
                            uint64_t place, uint32_t width, uint64_t *value);

/* Writes the low `width` bytes (1 to 8) of a value as a guest, at any alignment. The location is a
 * slot and offset, a port, or an address, as the guest sees it. A processor can make such an access
 * in one step, but the bus may need several cycles for it, so the call splits it as a bridge would:
 * into the pieces that pciguest_piece returns, in ascending order of addresses. The byte at the
 * lowest address is the lowest byte of the value.
 * Returns 0 on success; 302 if the width isn't 1 to 8; 303 if the access extends past the end of
 * its space, or if the slot is out of range; 902 if there is no such guest or space. The call
 * checks the width and the end of the access first, even before it checks for 901 and 902. Since
 * 0.3.0. */
uint32_t pciguest_write_wide(struct pciguest *machine, size_t guest, uint32_t space, uint64_t slot,
                             uint64_t place, uint32_t width, uint64_t value);

/* Reads 1 to 8 bytes, as a guest, from a region of one of its functions. The bytes are identified
 * by slot, base address register and offset, not by address. The call suits a hypervisor that maps
 * each region itself. While the guest's Command disables the region, the value is all ones. Even if
 * two regions of the guest are at the same address, this call can read either of them. The byte at
 * the lowest offset is the lowest byte of the value.
 * Returns 0 on success; 302 if the width isn't 1 to 8; 303 if the slot is above 31, no region
 * begins at this register (none does at part 6), or a byte is past the end of the region; 601 if
 * the slot is empty; 902 if there is no such guest, or the part is above 6. Since 0.4.0. */
uint32_t pciguest_region_read(struct pciguest *machine, size_t guest, uint64_t slot, uint32_t part,
                              uint64_t offset, uint32_t width, uint64_t *value);

/* Writes the low `width` bytes (1 to 8) of a value, as a guest, to a region of one of its
 * functions. The bytes are identified by slot, base address register and offset, not by address.
 * The call suits a hypervisor that maps each region itself. While the guest's Command disables the
 * region, the write is dropped. Even if two regions of the guest are at the same address, this call
 * can write to either of them. The byte at the lowest offset is the lowest byte of the value. If
 * any byte is refused, none is written.
 * Returns 0 on success; 302 if the width isn't 1 to 8; 303 if the slot is above 31, no region
 * begins at this register (none does at part 6), or a byte is past the end of the region; 601 if
 * the slot is empty; 902 if there is no such guest, or the part is above 6. Since 0.4.0. */
uint32_t pciguest_region_write(struct pciguest *machine, size_t guest, uint64_t slot, uint32_t part,
                               uint64_t offset, uint32_t width, uint64_t value);

/* Sets bits in one byte of the function in a guest's slot, from the device's side.
 * Returns 0 on success; 303 if the slot is above 31, or the function has no such byte; 601 if the
 * slot is empty; 902 if there is no such guest, or the part is above 6. */
uint32_t pciguest_raise(struct pciguest *machine, size_t guest, uint64_t slot, uint32_t part,
                        uint64_t offset, uint8_t mask);

/* Reads from the board as the host does. The location is a bus, device, function and offset, a
 * port, or an address, as on the board and not as a guest sees it. A read changes nothing.
 * Returns 0 on success; 302 if the width isn't 1, 2 or 4; 301 if `place` isn't a multiple of the
 * width; 303 if the offset or port is out of range; 902 if there is no such space, the device is
 * above 31, or the function is above 7. */
uint32_t pciguest_host_read(struct pciguest *machine, uint32_t space, uint8_t bus, uint8_t device,
                            uint8_t function, uint64_t place, uint32_t width, uint32_t *value);

/* Moves the function in a slot of one guest to a slot of another guest, or to another slot of the
 * same guest. The function is reset, so no state is carried over.
 * Returns 0 on success; 303 if a slot is above 31; 601 if the source slot is empty; 602 if the
 * target slot is occupied; 902 if there is no such guest. */
uint32_t pciguest_move(struct pciguest *machine, size_t from, uint64_t slot, size_t to,
                       uint64_t target);

/* Resets the function in a guest's slot and leaves it in that slot. As with a move, no state is
 * carried over. No script line resets a function in place, but two moves, to an empty slot and
 * back, have the same effect.
 * Returns 0 on success; 303 if the slot is above 31; 601 if the slot is empty; 902 if there is no
 * such guest. Since 0.3.0. */
uint32_t pciguest_reset(struct pciguest *machine, size_t guest, uint64_t slot);

/* Resets every function of a guest, without moving any of them, and the guest's own CONFIG_ADDRESS.
 * No state is carried over. The count that pciguest_changed stores increases by one. Script lines
 * can't do this.
 * Returns 0 on success; 902 if there is no such guest. Since 0.4.0. */
uint32_t pciguest_reset_guest(struct pciguest *machine, size_t guest);

/* Writes the image of a guest, and stores its length in `needed`. The image contains the guest's
 * complete state: its CONFIG_ADDRESS and, for each of its 32 slots, the declaration of the function
 * and the contents of its registers, as the guest sees them. It contains nothing about the board,
 * other guests, or where the guest's functions are. docs/image-format.md describes the bytes. The
 * rest of the buffer stays unchanged. To get only the length, pass a null pointer for `image` and 0
 * for `room`; the call then returns 902. The length stays the same as long as the guest has the
 * same functions in the same slots. Doesn't change the machine.
 * Returns 0 on success; 902 if the buffer is too small (only the length is stored), or if there is
 * no such guest (nothing is stored). Since 0.4.0. */
uint32_t pciguest_save(struct pciguest *machine, size_t guest, void *image, size_t room,
                       size_t *needed);

/* Loads an image into a guest, which then has the state of the saved guest. The guest must have
 * functions in exactly the same slots as the image, with the same declarations. They may be in
 * other places, even on another board. Other guests can't observe the load. The count that
 * pciguest_changed stores increases by one. Script lines can't do this.
 * Returns 0 on success; 906 if the image and the guest don't have functions in the same slots, or
 * if a function is declared differently; 908 if the image has an unsupported format version; 905 if
 * the bytes are not an image, for example because a register can't hold its value; 902 if there is
 * no such guest. The first wrong byte of the image decides between 905, 906 and 908. Since
 * 0.4.0. */
uint32_t pciguest_load(struct pciguest *machine, size_t guest, const void *image, size_t length);

/* Finds the first wrong byte of an image that pciguest_load refuses with 906 or 908. Stores its
 * offset in `offset`, and in `slot` the slot, 0 to 31, whose part of the image contains the byte,
 * or 32 if the byte is in front of the slots. For any other image, including one that fits, stores
 * 32 in `slot` and the length of the image in `offset`. docs/image-format.md describes the field at
 * each offset. The result depends only on the image and on the guest's own functions. Changes
 * nothing.
 * Returns 0 on success; 902 if there is no such guest. Since 0.4.0. */
uint32_t pciguest_image_fault(struct pciguest *machine, size_t guest, const void *image,
                              size_t length, uint64_t *slot, size_t *offset);

/* Stores the size in bytes of the image that pciguest_save_all would now write for the whole
 * machine. The size stays the same as long as the guests have the same functions in the same slots.
 * Changes nothing. Since 0.4.0. */
uint32_t pciguest_image_size_all(struct pciguest *machine, size_t *size);

/* Writes the image of the whole machine, and stores its length in `needed`. The image says which
 * guest has which function of the board in which slot, and contains each guest's state. It also
 * identifies the board, how it is set up, and its guests. docs/image-format.md describes the bytes.
 * The rest of the buffer stays unchanged. Doesn't change the machine.
 * Returns 0 on success; 902 if the buffer is too small (only the length is stored). Since 0.4.0. */
uint32_t pciguest_save_all(struct pciguest *machine, void *image, size_t room, size_t *needed);

/* Loads an image into the whole machine. Each slot then contains the function, and each guest has
 * the state, that it had in the saved machine. The machine's board must have the same functions at
 * the same places as the saved board and be set up in the same way, and the guests must have the
 * same names in the same order. It doesn't matter which slots the guests' functions are in before
 * the call, or what state the guests are in. The call first tries the load on a second machine,
 * which it frees at the end, so an image that is refused changes nothing. It then takes every
 * function from its guest, as pciguest_take does, and assigns and loads functions, as pciguest_give
 * and pciguest_load do. For each guest, the count that pciguest_changed stores increases. Script
 * lines can't do this.
 * Returns 0 on success; 907 if the board, its guests or its set-up differ; 906 if a slot would get
 * something that can't be assigned to it, or a function is declared differently; 908 if the image,
 * or a guest's image in it, has an unsupported format version; 905 if the bytes are not the image
 * of a machine; 299 if memory runs out. docs/image-format.md says which of these is checked first.
 * Since 0.4.0. */
uint32_t pciguest_load_all(struct pciguest *machine, const void *image, size_t length);

/* Assigns a function of the board to an empty slot of a guest. No guest may have the function
 * already. The function is reset, both in the slot and on the board, with one exception: the
 * registers that guests have their own copies of keep their values on the board. The function is
 * identified by its path, written as in board files and in struct pciguest_function. Script lines
 * can't do this.
 * Returns 0 on success; 303 if the slot is above 31, or there is no endpoint at the path; 602 if a
 * guest already has the function, or if the slot is occupied; 206 if one of the function's regions
 * is disabled on the board; 902 if there is no such guest. Since 0.4.0. */
uint32_t pciguest_give(struct pciguest *machine, const char *path, size_t length, size_t guest,
                       uint64_t slot);

/* Takes the function in a guest's slot away from the guest. The slot is then empty, and no guest
 * has the function. The function is reset on the board, with one exception: the registers that
 * guests have their own copies of keep their values there. Script lines can't do this.
 * Returns 0 on success; 303 if the slot is above 31; 601 if the slot is empty; 902 if there is no
 * such guest. Since 0.4.0. */
uint32_t pciguest_take(struct pciguest *machine, size_t guest, uint64_t slot);

/* Reads 1 to 8 bytes of the function in a guest's slot, from the device's side, at any offset
 * within one part. The part is a region or configuration space; in configuration space, a device
 * can read only the two bytes of Status (06h, 07h), the Capabilities Pointer (34h) and its own
 * registers (40h to FFh). A byte without a register reads as 0. The byte at the lowest offset is
 * the lowest byte of the value. If any byte is refused, the whole read is refused. A read changes
 * nothing.
 * Returns 0 on success; 302 if the width isn't 1 to 8; 303 if the slot is above 31, or if a byte is
 * past the end of the part or isn't one that a device can access; 601 if the slot is empty; 902 if
 * there is no such guest, or the part is above 6. Since 0.4.0. */
uint32_t pciguest_device_read_wide(struct pciguest *machine, size_t guest, uint64_t slot,
                                   uint32_t part, uint64_t offset, uint32_t width, uint64_t *value);

/* Writes the low `width` bytes (1 to 8) of a value to the function in a guest's slot, from the
 * device's side, at any offset within one part. The part is a region or configuration space; in
 * configuration space, a device can write only the two bytes of Status (06h, 07h), the Capabilities
 * Pointer (34h) and its own registers (40h to FFh). The device can change all bits of these bytes,
 * even bits that the guest can't change. A write to a byte without a register is dropped. The byte
 * at the lowest offset is the lowest byte of the value. If any byte is refused, none is written.
 * Returns 0 on success; 302 if the width isn't 1 to 8; 303 if the slot is above 31, or if a byte is
 * past the end of the part or isn't one that a device can access; 601 if the slot is empty; 902 if
 * there is no such guest, or the part is above 6. Since 0.4.0. */
uint32_t pciguest_device_write_wide(struct pciguest *machine, size_t guest, uint64_t slot,
                                    uint32_t part, uint64_t offset, uint32_t width, uint64_t value);

/* Finds a structure in the capability list of the function in a guest's slot (PCI Local Bus 3.0,
 * 6.7): the first one with this Capability ID after the structure at offset `after`, or in the
 * whole list if `after` is 0. Stores the structure's offset, which you can pass as `after` to find
 * the next one, or 0 if there is none. Reads the registers as the device does. If bit 4 of Status
 * is 0, the function has no list. The two low bits of a pointer are ignored, and a pointer below
 * 40h ends the list. A device or an image can change the pointers, even to a loop. So the list also
 * ends where it would come to a structure for the second time; it then has at most 48 structures,
 * and a loop that passes each result as the next `after` ends. Changes nothing.
 * Returns 0 on success; 303 if the slot is above 31, if there is a list and `after` is neither 0
 * nor the offset of one of its structures, or if a structure extends past FFh; 601 if the slot is
 * empty; 902 if there is no such guest. Since 0.4.0. */
static inline uint32_t pciguest_find_capability(struct pciguest *machine, size_t guest,
                                                uint64_t slot, uint64_t after, uint8_t id,
                                                uint64_t *offset)
{
    const uint32_t part = PCIGUEST_PART_CONFIG;
    uint64_t status = 0, next = 0, header = 0, found = 0, seen = 0; /* a bit for each 4 bytes */
    bool is_past = after == 0;
    uint32_t number;

    if (!offset)
        return PCIGUEST_ARGUMENT;
    number = pciguest_device_read_wide(machine, guest, slot, part, 0x06, 1, &status);
    if (!number && (status & 0x10))
        number = pciguest_device_read_wide(machine, guest, slot, part, 0x34, 1, &next);
    while (!number && !found && next >= 0x40 && !(seen >> next / 4 & 1)) {
        next &= 0xfc;
        seen |= (uint64_t)1 << next / 4;
        number = pciguest_device_read_wide(machine, guest, slot, part, next, 2, &header);
        found = is_past && (header & 0xff) == id ? next : 0;
        is_past = is_past || next == after;
        next = header >> 8;
    }
    if (!number && !is_past && (status & 0x10))
        number = PCIGUEST_OUT_OF_RANGE;
    if (!number)
        *offset = found;
    return number;
}

/* Stores whether the function in a guest's slot may access memory by itself (DMA), that is, whether
 * Bus Master, bit 2 of Command, is set in the guest's own Command (PCI Local Bus 3.0, 6.2.2). A
 * device may access only the memory of the guest that has its function, and only while the bit is
 * set. The library has no access to memory and can't enforce this, so a device model must make this
 * call before it reads or writes memory. A reset or a move clears the bit. Changes nothing.
 * Returns 0 on success; 303 if the slot is above 31; 601 if the slot is empty; 902 if there is no
 * such guest. Since 0.4.0. */
static inline uint32_t pciguest_bus_master(struct pciguest *machine, size_t guest, uint64_t slot,
                                           bool *is_set)
{
    uint32_t command = 0, number;

    if (!is_set)
        return PCIGUEST_ARGUMENT;
    number = pciguest_read(machine, guest, PCIGUEST_CONFIG, slot, 0x04, 2, &command);
    if (!number && command == 0xffff) /* all ones: nothing responds, since Command has fewer bits */
        number = PCIGUEST_EMPTY_SLOT;
    if (!number)
        *is_set = (command & 0x4) != 0;
    return number;
}

/* Stores the message that the function in a guest's slot sends for an MSI-X vector, and whether the
 * function may send it now (PCI Local Bus 3.0, 6.8.2). Vectors are counted from 0. Finds the MSI-X
 * structure in the capability list, and the table's region and offset in that structure. Reads
 * these registers as the device does. If the function has no MSI-X structure, all fields are 0. A
 * message is a write to memory, so it can only be sent while Bus Master is set. The library doesn't
 * set pending bits: a device model that can't send a message sets the vector's pending bit, and
 * repeats the call when the guest has written Command, Message Control or the table. Changes
 * nothing.
 * Returns 0 on success; 303 if the slot is above 31, the table has no such vector, or the table
 * isn't in a region of the function; 601 if the slot is empty; 902 if there is no such guest. Since
 * 0.4.0. */
static inline uint32_t pciguest_msix_message(struct pciguest *machine, size_t guest, uint64_t slot,
                                             uint32_t vector, struct pciguest_message *message)
{
    struct pciguest_message found = {0, 0, 0, 0, 0};
    uint64_t at = 0, head = 0, first, entry[2] = {0, 0};
    uint32_t bar, half, number;
    bool is_master = false;

    if (!message)
        return PCIGUEST_ARGUMENT;
    number = pciguest_bus_master(machine, guest, slot, &is_master);
    if (!number)
        number = pciguest_find_capability(machine, guest, slot, 0, 0x11, &at);
    if (!number && at) /* Message Control, then the table's register and offset */
        number = pciguest_device_read_wide(machine, guest, slot, PCIGUEST_PART_CONFIG, at + 2, 6,
                                           &head);
    bar = (uint32_t)(head >> 16) & 7;
    first = (head >> 19) * 8 + (uint64_t)vector * 16;
    if (!number && at && (vector > (head & 0x7ff) || bar >= PCIGUEST_BARS))
        number = PCIGUEST_OUT_OF_RANGE;
    for (half = 0; half < 2 && !number && at; half++)
        number = pciguest_device_read_wide(machine, guest, slot, bar, first + 8 * half, 8,
                                           &entry[half]);
    if (number)
        return number;
    found.address = entry[0];
    found.data = (uint32_t)entry[1];
    found.is_enabled = (uint32_t)(head >> 15) & 1;
    found.is_masked = (uint32_t)(head >> 14 | entry[1] >> 32) & 1;
    found.can_be_sent = is_master && found.is_enabled && !found.is_masked;
    *message = found;
    return 0;
}

/* Stores the message that the function in a guest's slot sends for an MSI vector, and whether the
 * function may send it now (PCI Local Bus 3.0, 6.8.1). Vectors are counted from 0. Finds the MSI
 * structure in the capability list, and reads its registers as the device does. The low bits of
 * `data` are the vector, as many bits as Multiple Message Enable says. `is_masked` can be 1 only if
 * the structure has mask bits. If the function has no MSI structure, all fields are 0. A message is
 * a write to memory, so it can only be sent while Bus Master is set. The library doesn't set
 * pending bits: a device model that can't send a message sets the vector's pending bit, if the
 * structure has pending bits, and repeats the call when the guest has written Command or the
 * structure. Changes nothing.
 * Returns 0 on success; 303 if the slot is above 31, the driver hasn't allocated the vector (vector
 * 0 is always allocated), or the structure extends past FFh; 601 if the slot is empty; 902 if there
 * is no such guest. Since 0.4.0. */
static inline uint32_t pciguest_msi_message(struct pciguest *machine, size_t guest, uint64_t slot,
                                            uint32_t vector, struct pciguest_message *message)
{
    const uint32_t part = PCIGUEST_PART_CONFIG;
    struct pciguest_message found = {0, 0, 0, 0, 0};
    uint64_t at = 0, control = 0, data = 0, masks = 0, half;
    uint32_t allocated, number;
    bool is_master = false;

    if (!message)
        return PCIGUEST_ARGUMENT;
    number = pciguest_bus_master(machine, guest, slot, &is_master);
    if (!number)
        number = pciguest_find_capability(machine, guest, slot, 0, 0x05, &at);
    if (!number && at)
        number = pciguest_device_read_wide(machine, guest, slot, part, at + 2, 2, &control);
    allocated = (uint32_t)(control >> 4) & 7; /* Multiple Message Enable; 6 and 7 are reserved */
    allocated = (uint32_t)1 << (allocated < 5 ? allocated : 5);
    half = control & 0x80 ? 4 : 0; /* an address of 64 bits moves what follows it */
    if (!number && at && vector >= allocated)
        number = PCIGUEST_OUT_OF_RANGE;
    if (!number && at)
        number = pciguest_device_read_wide(machine, guest, slot, part, at + 4, (uint32_t)(4 + half),
                                           &found.address);
    if (!number && at)
        number = pciguest_device_read_wide(machine, guest, slot, part, at + 8 + half, 2, &data);
    if (!number && (control & 0x100)) /* Per-vector masking capable */
        number = pciguest_device_read_wide(machine, guest, slot, part, at + 12 + half, 4, &masks);
    if (number)
        return number;
    found.data = at ? ((uint32_t)data & ~(allocated - 1)) | vector : 0;
    found.is_enabled = (uint32_t)control & 1;
    found.is_masked = (uint32_t)(masks >> (vector & 31)) & 1;
    found.can_be_sent = is_master && found.is_enabled && !found.is_masked;
    *message = found;
    return 0;
}

/* Sets or clears Interrupt Status, bit 3 of Status, of the function in a guest's slot, and stores
 * whether the function asserts its interrupt pin now (PCI Local Bus 3.0, 6.2.2, 6.2.3 and 6.8.1.3):
 * it does if the bit is set, the function has a pin (Interrupt Pin isn't 0), the guest's own
 * Command doesn't set Interrupt Disable, and both MSI Enable and MSI-X Enable are clear. A device
 * model sets the bit while it requests an interrupt, because a driver that shares its interrupt
 * reads the bit to find out whether the interrupt is its own. Repeat the call with the same value
 * after a guest write to Command or to a structure of the capability list, and after a load; after
 * a reset or a move, the bit is clear.
 * Returns 0 on success; 303 if the slot is above 31, or a structure of the capability list extends
 * past FFh; 601 if the slot is empty; 902 if there is no such guest. Since 0.4.0. */
static inline uint32_t pciguest_set_interrupt(struct pciguest *machine, size_t guest, uint64_t slot,
                                              bool is_requested, bool *is_asserted)
{
    const uint32_t part = PCIGUEST_PART_CONFIG;
    static const uint8_t ids[2] = {0x05, 0x11}, enables[2] = {0x01, 0x80}; /* MSI, MSI-X */
    uint64_t status = 0, at = 0, control = 0, is_enabled = 0;
    uint32_t command = 0, pin = 0, number, i;

    if (!is_asserted)
        return PCIGUEST_ARGUMENT;
    number = pciguest_device_read_wide(machine, guest, slot, part, 0x06, 1, &status);
    for (i = 0; i < 2 && !number; i++) {
        number = pciguest_find_capability(machine, guest, slot, 0, ids[i], &at);
        if (!number && at) /* the byte of Message Control that has the Enable bit */
            number = pciguest_device_read_wide(machine, guest, slot, part, at + 2 + i, 1, &control);
        is_enabled |= at ? control & enables[i] : 0;
    }
    if (!number)
        number = pciguest_read(machine, guest, PCIGUEST_CONFIG, slot, 0x04, 2, &command);
    if (!number)
        number = pciguest_read(machine, guest, PCIGUEST_CONFIG, slot, 0x3d, 1, &pin);
    if (!number)
        number = pciguest_device_write_wide(machine, guest, slot, part, 0x06, 1,
                                            (status & 0xf7) | (is_requested ? 0x08 : 0));
    if (!number)
        *is_asserted = is_requested && pin && !(command & 0x400) && !is_enabled;
    return number;
}

/* Stores where a region of the function in a guest's slot is now, as the guest sees it. The region
 * is the one that begins at base address register `bar`, 0 to 5. The result stays valid until the
 * guest writes Command or a base address register of this function, or until the function is moved,
 * reset, loaded or taken. No result for the guest changes while pciguest_changed stores the same
 * count. Changes nothing.
 * Returns 0 on success; 303 if the slot is above 31, or no region begins at this register; 601 if
 * the slot is empty; 902 if there is no such guest. Since 0.3.0. */
uint32_t pciguest_region(struct pciguest *machine, size_t guest, uint64_t slot, uint32_t bar,
                         struct pciguest_region *region);

/* Stores a count that shows whether a region of the guest may have moved, or Command of one of its
 * functions may have changed. As long as the count stays the same, so does every result of
 * pciguest_region and pciguest_bus_master for this guest, and Interrupt Disable, for all slots. The
 * count increases by one with each guest write that includes a byte of Command (04h, 05h) or of a
 * base address register of one of the guest's functions, whatever the value, and with each move,
 * reset, pciguest_give or pciguest_take that touches one of the guest's slots. It also increases by
 * one with each pciguest_reset_guest or pciguest_load of the guest, and by one or more with each
 * pciguest_load_all. Nothing else increases the count. In a new machine, the count is 0; after
 * `2^64 - 1`, it returns to 0. Changes nothing.
 * Returns 0 on success; 902 if there is no such guest. Since 0.4.0. */
uint32_t pciguest_changed(struct pciguest *machine, size_t guest, uint64_t *count);

/* Updates rows that say where a guest's regions are, and stores in `count` how many of these rows
 * changed. A row changes if its region moved, or was enabled or disabled. The caller keeps the rows
 * from call to call and sets all their bytes to 0 before the first call. The row for slot S and
 * base address register B is `places[6 * S + B]`. `room` is the number of rows in the caller's
 * array; PCIGUEST_PLACES rows cover all slots. In each of these rows, `now` says where the region
 * is, `before` says where it was at the row's previous update, and `has_moved` says whether the two
 * differ. A region that is back where it was, as at the end of sizing, has not moved. Because two
 * regions may have swapped addresses, a hypervisor goes twice through the rows whose `has_moved` is
 * 1: it first unmaps each `before` whose `is_open` is 1, and then maps each `now` whose `is_open`
 * is 1. The hypervisor calls pciguest_moved again when the count that pciguest_changed stores has
 * changed.
 * Returns 0 on success; 902 if there is no such guest. Since 0.4.0. */
uint32_t pciguest_moved(struct pciguest *machine, size_t guest, struct pciguest_place *places,
                        size_t room, size_t *count);

/* Finds the byte that a guest access to a slot and offset, to a port, or to an address reaches: a
 * byte of a function in one of the guest's slots, or nothing. Every access to that location begins
 * at this byte, except a 4-byte access to port CF8h, which reaches the guest's own CONFIG_ADDRESS.
 * Changes nothing.
 * Returns 0 on success; 303 if the slot, offset or port is out of range; 902 if there is no such
 * guest or space. Since 0.3.0. */
uint32_t pciguest_locate(struct pciguest *machine, size_t guest, uint32_t space, uint64_t slot,
                         uint64_t place, struct pciguest_hit *hit);

/* Explains why a guest's access to a slot and offset, a port, or an address reaches what it does,
 * or nothing. Writes one line for each fact, and stores the text's length in `needed`. The text
 * isn't null-terminated. For port CF8h, and for CFCh to CFFh, a line says how the guest's
 * CONFIG_ADDRESS decides what the port accesses (PCI Local Bus 3.0, 3.2.2.3.2). If a function
 * responds, the next line gives its slot, the part of it that the access reaches (a region or
 * configuration space), and the offset in that part. Otherwise, the next line says that nothing
 * responds, that the slot is empty, or that CONFIG_ADDRESS selects no slot. If nothing responds at
 * a port or an address, one more line follows for each region of the guest that contains the port
 * or address but is disabled, because Command doesn't enable its space (6.2.5). These lines are
 * ordered by slot and then by register. The text depends only on the guest's own functions and
 * CONFIG_ADDRESS. Changes nothing.
 * Returns 0 on success; 303 if the slot, offset or port is out of range; 902 if there is no such
 * guest or space, or if the buffer is too small (only the length is stored); 299 if memory runs
 * out. Since 0.4.0. */
uint32_t pciguest_why(struct pciguest *machine, size_t guest, uint32_t space, uint64_t slot,
                      uint64_t place, char *text, size_t room, size_t *needed);

/* Explains, as a one-line JSON object, why a guest's access to a slot and offset, a port, or an
 * address reaches what it does, or nothing, and stores the text's length in `needed`. The text
 * isn't null-terminated. The object contains everything that the lines of pciguest_why say, except
 * the value of CONFIG_ADDRESS. Changes nothing.
 * Returns 0 on success; 303 if the slot, offset or port is out of range; 902 if there is no such
 * guest or space, or if the buffer is too small (only the length is stored); 299 if memory runs
 * out. Since 0.4.0. */
uint32_t pciguest_why_json(struct pciguest *machine, size_t guest, uint32_t space, uint64_t slot,
                           uint64_t place, char *text, size_t room, size_t *needed);

/* Stores how many functions the machine's board has, endpoints and bridges together. Since
 * 0.4.0. */
uint32_t pciguest_count(struct pciguest *machine, size_t *count);

/* Stores a row that describes the function at `index`. Functions are counted from 0 in path order,
 * so a bridge comes before what is behind it; `index` must be less than the count that
 * pciguest_count stores. The row's bus, device and function numbers, regions and windows come from
 * the board's own registers, which no guest writes. The row's guest and slot reflect all moves so
 * far. Changes nothing.
 * Returns 0 on success; 902 if there is no such function. Since 0.4.0. */
uint32_t pciguest_function(struct pciguest *machine, size_t index,
                           struct pciguest_function *function);

/* Stores the row that describes the function in a guest's slot, as pciguest_function does. The
 * row's bus, device and function numbers and regions come from the board's own registers, which no
 * guest writes. To find out only whether the guest has set Interrupt Disable, read Command with
 * pciguest_read, which is faster. Changes nothing.
 * Returns 0 on success; 303 if the slot is above 31; 601 if the slot is empty; 902 if there is no
 * such guest. Since 0.4.0. */
uint32_t pciguest_slot(struct pciguest *machine, size_t guest, uint64_t slot,
                       struct pciguest_function *function);

/* Runs one line of a script, writes the reply, and stores its length in `written`. The line may end
 * with its line feed; a line feed anywhere else makes it a bad line. The reply is one line with its
 * line feed, or nothing for a blank line or a comment. The reply isn't null-terminated. If the line
 * is refused, the reply says so, and the call still returns 0.
 * Returns 0 on success; 902 if the buffer is smaller than PCIGUEST_REPLY. */
uint32_t pciguest_run_line(struct pciguest *machine, const char *line, size_t length, char *reply,
                           size_t room, size_t *written);

/* Explains why a line of a script is refused with 401, 402 or 403. Writes a sentence without a line
 * feed, such as "missing width (expected 'cr SLOT OFFSET WIDTH')", and stores its length in
 * `needed`. Stores the position of the wrong word in `word`: 0 for the name, 1 for the word after
 * the name, and so on. For any other line, the text is empty. The text isn't null-terminated. The
 * line isn't run, and may end with its line feed. Changes nothing.
 * Returns 0 on success; 902 if the buffer is too small (only the length is stored). Since 0.4.0. */
uint32_t pciguest_explain_line(struct pciguest *machine, const char *line, size_t length,
                               size_t *word, char *text, size_t room, size_t *needed);

/* Writes the report of a board file, as `pciguest list` does, and stores the text's length in
 * `needed`. The text isn't null-terminated. Needs no machine.
 * Returns 0 on success; 101 to 112 or 201 to 205 for the first check that the file or its board
 * fails; 199 or 299 if memory runs out; 902 if the buffer is too small (only the length is
 * stored). */
uint32_t pciguest_report(const void *board, size_t length, char *text, size_t room, size_t *needed);

/* Writes the report of a board file as a JSON object on one line, as `pciguest list --json` does,
 * and stores the text's length in `needed`. The text isn't null-terminated. Needs no machine.
 * Returns 0 on success; 101 to 112 or 201 to 205 for the first check that the file or its board
 * fails; 199 or 299 if memory runs out; 902 if the buffer is too small (only the length is stored).
 * Since 0.4.0. */
uint32_t pciguest_report_json(const void *board, size_t length, char *text, size_t room,
                              size_t *needed);

/* Writes what is wrong with a board file, or that its board fits, as `pciguest check board.toml`
 * does, and stores the text's length in `needed`. The warnings that `--all` adds are not included.
 * The text isn't null-terminated. Needs no machine.
 * Returns 0 if the board fits; 101 to 112 or 201 to 205 if the file or its board is refused, and
 * the text says why; 199 or 299 if memory runs out (nothing is written or stored); 902 if the
 * buffer is too small (only the length is stored). */
uint32_t pciguest_check(const void *board, size_t length, char *text, size_t room, size_t *needed);

/* Creates a board in its reset state from the bytes of a board file, for your own firmware to
 * drive. No bus number or address is assigned yet, and Command is 0 in every function. The guests
 * that the file declares are checked, but no function is assigned to them.
 * Returns 0 on success; 101 to 112 for the first check that the file fails; 199 if memory runs out;
 * 903 if the struct already holds a board. Since 0.3.0. */
uint32_t pciguest_board_new(struct pciguest_board *board, const void *file, size_t length);

/* Frees the board or, if a line has handed the board over, the resulting machine. The struct is
 * then empty and can be used for a new board. Does nothing if the struct is already empty. Since
 * 0.3.0. */
void pciguest_board_free(struct pciguest_board *board);

/* Reads as firmware does, whatever state the registers are in. Configuration space is addressed by
 * bus, device, function and byte offset, I/O by port, and memory by address. The value is all ones
 * if nothing responds. `bus`, `device` and `function` are used only in configuration space, which
 * can also be reached through the ports CF8h and CFCh. A read that addresses configuration space by
 * bus, device and function sets CONFIG_ADDRESS (CF8h) to 0; every other read changes nothing.
 * Returns 0 on success; 302 if the width isn't 1, 2 or 4; 301 if `place` isn't a multiple of the
 * width; 303 if the offset is above 255, or the port is above FFFFFFFFh; 902 if there is no such
 * space, the device is above 31, or the function is above 7. Since 0.3.0. */
uint32_t pciguest_board_read(struct pciguest_board *board, uint32_t space, uint8_t bus,
                             uint8_t device, uint8_t function, uint64_t place, uint32_t width,
                             uint32_t *value);

/* Writes the low `width` bytes of a value as firmware does, whatever state the registers are in.
 * Configuration space is addressed by bus, device, function and byte offset, I/O by port, and
 * memory by address. The write is dropped if nothing responds. `bus`, `device` and `function` are
 * used only in configuration space, which can also be reached through the ports CF8h and CFCh. A
 * write that addresses configuration space by bus, device and function sets CONFIG_ADDRESS (CF8h)
 * to 0.
 * Returns 0 on success; 302 if the width isn't 1, 2 or 4; 301 if `place` isn't a multiple of the
 * width; 303 if the offset is above 255, or the port is above FFFFFFFFh; 902 if there is no such
 * space, the device is above 31, or the function is above 7. Since 0.3.0. */
uint32_t pciguest_board_write(struct pciguest_board *board, uint32_t space, uint8_t bus,
                              uint8_t device, uint8_t function, uint64_t place, uint32_t width,
                              uint32_t value);

/* Runs one line of a session, as `pciguest firmware` does, writes the reply, and stores its length
 * in `written`. The line may end with its line feed. While firmware drives the board, the line can
 * be any firmware line: an access, `host audit`, `host ready`, `host why ..` or `host guests`. The
 * replies to `host audit` and `host ready` are the texts that pciguest_board_audit and
 * pciguest_board_ready write. The reply to `host why ..` explains why an address, a port, or a
 * bus/device/function number leads where it does, or nowhere. `host guests` hands the board over to
 * the guests that its file declares, as pciguest_board_guests does; if that fails, the reply says
 * why. Once the board has been handed over, the line is a script line. The struct then holds the
 * machine, which pciguest_board_guests can move to a struct of its own. Apart from
 * pciguest_board_run_line, pciguest_board_guests and pciguest_board_free, calls on a board then
 * return 901 (pciguest_board_new returns 903). If a line is refused, the reply says so, and the
 * call still returns 0. The reply is one line with its line feed, or nothing. Only the replies to
 * `host audit`, `host ready`, `host why ..` and a refused `host guests` can have more lines. The
 * reply isn't null-terminated.
 * Returns 0 on success; 902 if the buffer is smaller than PCIGUEST_REPLY, or if it is too small for
 * a reply of several lines (the length of that reply is stored); 299 if memory runs out for
 * `host audit`, `host ready`, `host why ..` or `host guests`. If the call returns 902 or 299, the
 * line has no effect. Only these four lines allocate memory. Since 0.3.0. */
uint32_t pciguest_board_run_line(struct pciguest_board *board, const char *line, size_t length,
                                 char *reply, size_t room, size_t *written);

/* Stores how many functions the board that firmware drives has, endpoints and bridges together.
 * Since 0.4.0. */
uint32_t pciguest_board_count(struct pciguest_board *board, size_t *count);

/* Stores a row that describes the function at `index`. Functions are counted from 0 in path order,
 * and `index` must be less than the count that pciguest_board_count stores. The row reflects the
 * registers as they are now, in whatever state firmware left them. It contains the function's bus,
 * device and function numbers, whether a configuration access to these numbers reaches the
 * function, its base address registers or windows, and whether its Command enables their spaces.
 * Changes nothing, not even CONFIG_ADDRESS.
 * Returns 0 on success; 902 if there is no such function. Since 0.4.0. */
uint32_t pciguest_board_function(struct pciguest_board *board, size_t index,
                                 struct pciguest_board_function *function);

/* Reports what is wrong in the registers of a board as they are now, no matter who wrote them:
 * writes one line for each problem, then a last line, `audit: ok` or `audit: N problems`. A problem
 * is one of three kinds: a bridge above an enabled region doesn't forward every byte of the region;
 * two enabled regions or bridges respond to the same address on one bus; or no configuration cycle
 * reaches a function. Stores the text's length in `needed` and the number of problems in `count`.
 * The text isn't null-terminated. Changes nothing.
 * Returns 0 on success; 902 if the buffer is too small (only the length is stored); 299 if memory
 * runs out. Since 0.3.0. */
uint32_t pciguest_board_audit(struct pciguest_board *board, char *text, size_t room, size_t *needed,
                              size_t *count);

/* Reports what is wrong in the registers of a board as a JSON object on one line, as
 * `pciguest audit --json` does. The object contains every problem that pciguest_board_audit
 * reports, in the same order and with the same information. Stores the text's length in `needed`
 * and the number of problems in `count`. The text isn't null-terminated. Changes nothing.
 * Returns 0 on success; 902 if the buffer is too small (only the length is stored); 299 if memory
 * runs out. Since 0.4.0. */
uint32_t pciguest_board_audit_json(struct pciguest_board *board, char *text, size_t room,
                                   size_t *needed, size_t *count);

/* Reports what is wrong in the registers of a board as they are now, and what is left to do: writes
 * the lines of pciguest_board_audit except the last, then one line for each readiness issue, then a
 * last line, `ready: ok` or counts such as `ready: 1 problem, 2 left to do`. There are four kinds
 * of readiness issue: a region is disabled; a region is outside the apertures; a region is
 * prefetched although it isn't prefetchable; or a bridge's Primary Bus Number isn't the number of
 * the bus that it is on. Stores the text's length in `needed`, and in `count` the number of
 * problems and readiness issues, which is 0 if the board is ready. The text isn't null-terminated.
 * Changes nothing.
 * Returns 0 on success; 902 if the buffer is too small (only the length is stored); 299 if memory
 * runs out. Since 0.4.0. */
uint32_t pciguest_board_ready(struct pciguest_board *board, char *text, size_t room, size_t *needed,
                              size_t *count);

/* Reports what is wrong in the registers of a board and what is left to do as a JSON object on one
 * line, as `pciguest ready --json` does. The object contains every problem and readiness issue that
 * pciguest_board_ready reports, in the same order and with the same information. Stores the text's
 * length in `needed`, and in `count` the number of problems and readiness issues, which is 0 if the
 * board is ready. The text isn't null-terminated. Changes nothing.
 * Returns 0 on success; 902 if the buffer is too small (only the length is stored); 299 if memory
 * runs out. Since 0.4.0. */
uint32_t pciguest_board_ready_json(struct pciguest_board *board, char *text, size_t room,
                                   size_t *needed, size_t *count);

/* Explains, as a one-line JSON object, why an address, a port, or a bus/device/function number
 * leads where it does, or nowhere, given what the registers hold now. The object contains
 * everything that the lines of `host why ..` say, except the value of CONFIG_ADDRESS. The arguments
 * are those of pciguest_board_read, except that `place` is ignored in configuration space. A port
 * above FFFFFFFFh is accepted, and nothing responds to it. Stores the text's length in `needed`.
 * The text isn't null-terminated. Changes nothing, not even CONFIG_ADDRESS.
 * Returns 0 on success; 902 if there is no such space, device or function, or if the buffer is too
 * small (only the length is stored); 299 if memory runs out. Since 0.4.0. */
uint32_t pciguest_board_why_json(struct pciguest_board *board, uint32_t space, uint8_t bus,
                                 uint8_t device, uint8_t function, uint64_t place, char *text,
                                 size_t room, size_t *needed);

/* Sets up a board that is in its reset state, in place of your own firmware, and assigns its
 * functions to the guests that its file declares. The resulting machine is the one that
 * pciguest_new makes from the same file. The board stays unchanged.
 * Returns 0 on success, or the first of these errors that applies: 901 if there is no board; 903 if
 * the machine's struct already holds a machine; 904 if the board has been written to since reset;
 * 201 to 205 if the board can't be set up; 299 if memory runs out. Since 0.3.0. */
uint32_t pciguest_set_up(struct pciguest_board *board, struct pciguest *machine);

/* Assigns the functions of a board to the guests that its file declares. The board is used as it is
 * now, no matter who set it up. The audit of the board must find no problem, and every region of
 * the functions to be assigned must be enabled. The board then belongs to the machine, and the
 * board's struct is empty. Each assigned function is reset, except for the registers that guests
 * have their own copies of, and the board's CONFIG_ADDRESS is cleared. If a line has already handed
 * the board over, `machine` receives the resulting machine, in its current state. If the call
 * fails, both structs stay unchanged.
 * Returns 0 on success; 901 if there is no board; 903 if the machine's struct already holds a
 * machine; 207 if the audit finds a problem, which pciguest_board_audit reports; 206 if a region of
 * a function to be assigned is disabled; 299 if memory runs out. 901, 903 and 207 are checked in
 * this order, before 206. Since 0.4.0. */
uint32_t pciguest_board_guests(struct pciguest_board *board, struct pciguest *machine);

#ifdef __cplusplus
}
#endif

#endif
