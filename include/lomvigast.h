/*
 * The proved ring core over the C calling convention: all that liblomvigast_ffi.a and libtrb_ffi.a export.
 *
 * No argument is outside a contract: a call answers, or refuses with a number (enum lomvigast_refusal), and a refused call has
 * changed no byte of guest memory and no ring. What it was lent for an answer is as it was, and so holds nothing to go by; only
 * lomvigast_parse_command and lomvigast_parse_transfer tell a refusal there, as `unrecognized`. Nothing allocates, nothing is
 * kept between calls, and there is no global state: calls may run at the same time where what they are lent is apart, or only
 * read by all of them.
 *
 * Guest memory is lent for one call as a window, `start`, `mem` and `len`: `len` bytes, of which the first has guest address
 * `start`. k bytes from address a on are inside if a is at least start, a + k is at most 2^64, and a - start + k is at most len.
 * A window may end at 2^64; bytes that would stand beyond have no address. Nobody may write to it during the call (the proofs are
 * about memory that stands still), and where a call is given `uint8_t *mem` nobody may read it either. With len 0 `mem` is not
 * read, but must not be NULL.
 *
 * Every pointer must be valid for the call, aligned as its type is, and point at nothing that another pointer of the same call
 * points at, guest memory among it. Two `const` pointers may meet.
 *
 * A `bool` that goes in must be 0 or 1, as C's own is. Padding may hold anything; the core looks at none.
 *
 * x86-64 Linux, little-endian. The tests hold this list beside the sources in Rattle and beside Rust's.
 */
#ifndef LOMVIGAST_H
#define LOMVIGAST_H

#include <stdbool.h>
#include <stddef.h>
#include <stdint.h>

#ifdef __cplusplus
extern "C" {
#endif

/* ---- Answers that are numbers */

/* Why a call was refused. 0 is no refusal. */
enum lomvigast_refusal {
    /* A byte to be touched is not inside the lent memory. */
    LOMVIGAST_OUTSIDE = 1,
    /* The segment table's base is not a multiple of 64. */
    LOMVIGAST_TABLE_BASE = 2,
    /* The segment table has 0 or more than 16 entries. */
    LOMVIGAST_TABLE_ENTRIES = 3,
    /* The ring was never configured, or was reset, or its state breaks its own limits. */
    LOMVIGAST_STATE = 4,
    /* A segment entry has a base that is no multiple of 64, a size of 0 or above 4096, or slots that are not all inside memory. */
    LOMVIGAST_SEGMENT = 5,
    /* The reported place is not a multiple of 16. */
    LOMVIGAST_REPORT = 6,
    /* The ring is full: the slot after the present one is the reported place. The event is the caller's to keep. */
    LOMVIGAST_FULL = 7,
    /* An event that cannot be written: a command pointer with low bits set, a parameter or length of 2^24 or more. */
    LOMVIGAST_EVENT = 8,
    /* An optional command (types 18 to 21), whose type is told beside. */
    LOMVIGAST_OPTIONAL = 9,
    /* A type, told beside, that this parser has no row for. */
    LOMVIGAST_TYPE = 10,
    /* A bit is set that must be 0. */
    LOMVIGAST_RESERVED = 11,
    /* A completion code that this event cannot hold. */
    LOMVIGAST_CODE = 12,
    /* The data part was asked of a TRB that holds its data itself. */
    LOMVIGAST_IMMEDIATE = 13
};

/* What lomvigast_take answers where there is no event. No refusal has this number. */
#define LOMVIGAST_NOTHING 255

/* Of an answer's second half: below this it is a refusal's number. No event's is as low, since its type stands above. */
#define LOMVIGAST_REFUSED_BELOW 256

/* A refusal inside an answer, with the TRB's type beside 9 and 10; beside the others it says nothing. */
struct lomvigast_refused {
    uint8_t number;
    uint8_t trb_type;
};

/* ---- TRBs (xHCI 6.4) */

/* The sixteen bytes as two little-endian numbers: bytes 0 to 7, and bytes 8 to 15. */
struct lomvigast_trb {
    uint64_t low;
    uint64_t high;
};

/*
 * The unions below begin with the tag, the TRB's type (xHCI table 6-91), or 0 for bytes that were refused. Read the tag, then
 * the record of that name. An answer writes the words of its own record alone: the others are as they were.
 */

/* Bytes that a parser refused, as they were given, and why. */
struct lomvigast_unrecognized {
    uint8_t tag; /* 0 */
    uint8_t bytes[16];
    struct lomvigast_refused refused;
};

struct lomvigast_slot_command {
    uint8_t tag; /* 10 Disable Slot, 17 Reset Device */
    uint8_t slot_id;
};

struct lomvigast_endpoint_command {
    uint8_t tag;         /* 14 Reset Endpoint, 15 Stop Endpoint */
    uint8_t endpoint_id; /* five bits */
    uint8_t slot_id;
};

struct lomvigast_context_command {
    uint8_t tag;                    /* 11 Address Device, 12 Configure Endpoint, 13 Evaluate Context */
    uint64_t input_context_pointer; /* a multiple of 16 */
    uint8_t slot_id;
    bool flag; /* of 11: block set address request; of 12: deconfigure; 13 has none */
};

struct lomvigast_dequeue_command {
    uint8_t tag;              /* 16 Set TR Dequeue Pointer */
    uint64_t dequeue_pointer; /* a multiple of 16 */
    uint16_t stream_id;
    uint8_t endpoint_id; /* five bits */
    uint8_t slot_id;
    bool dequeue_cycle_state;
    uint8_t stream_context_type; /* 0 to 7 */
};

/* A TRB of the command ring. 9 Enable Slot, 22 Force Header and 23 No Op are a tag alone. */
union lomvigast_command {
    uint8_t tag;
    struct lomvigast_slot_command slot;
    struct lomvigast_endpoint_command endpoint;
    struct lomvigast_context_command context;
    struct lomvigast_dequeue_command dequeue;
    struct lomvigast_unrecognized unrecognized; /* with 9, 10 or 11 */
};

struct lomvigast_normal {
    uint8_t tag;              /* 1 */
    uint64_t data_pointer;    /* where the data is, or the data itself */
    uint32_t transfer_length; /* 17 bits */
    bool chain;
    bool interrupt_on_completion;
    bool immediate_data;
    bool interrupt_on_short;
};

struct lomvigast_setup_stage {
    uint8_t tag; /* 2 */
    uint8_t unused;
    uint8_t request_type;
    uint8_t request;
    uint16_t value;
    uint16_t index;
    uint16_t length;
    bool interrupt_on_completion;
};

struct lomvigast_data_stage {
    uint8_t tag; /* 3 */
    uint64_t data_pointer;
    uint32_t transfer_length;
    bool chain;
    bool interrupt_on_completion;
    bool immediate_data;
    bool interrupt_on_short;
    bool direction; /* whether the device sends */
};

struct lomvigast_status_stage {
    uint8_t tag; /* 4 */
    bool chain;
    bool interrupt_on_completion;
    bool direction;
};

struct lomvigast_event_data {
    uint8_t tag; /* 7 */
    uint64_t event_data;
    bool chain;
    bool interrupt_on_completion;
};

struct lomvigast_no_op {
    uint8_t tag; /* 8 */
    bool chain;
    bool interrupt_on_completion;
};

/* A TRB of a transfer ring. 5 Isoch is a tag alone; a Link is refused with 10. */
union lomvigast_transfer {
    uint8_t tag;
    struct lomvigast_normal normal;
    struct lomvigast_setup_stage setup_stage;
    struct lomvigast_data_stage data_stage;
    struct lomvigast_status_stage status_stage;
    struct lomvigast_event_data event_data;
    struct lomvigast_no_op no_op;
    struct lomvigast_unrecognized unrecognized; /* with 10 */
};

struct lomvigast_transfer_event {
    uint8_t tag; /* 32 */
    uint64_t trb_pointer;
    uint32_t trb_transfer_length; /* below 2^24 */
    uint8_t completion_code;      /* 0 to 29 or 31 to 36 (xHCI table 6-90) */
    bool event_data;
    uint8_t endpoint_id;
    uint8_t slot_id;
};

struct lomvigast_command_completion_event {
    uint8_t tag;                           /* 33 */
    uint64_t command_trb_pointer;          /* a multiple of 16 */
    uint32_t command_completion_parameter; /* below 2^24 */
    uint8_t completion_code;               /* 0 to 29 or 31 to 36 */
    uint8_t slot_id;
};

struct lomvigast_port_status_change_event {
    uint8_t tag; /* 34 */
    uint8_t port_id;
};

/* An event. One that breaks what is said above is refused: its tag with 10, its code with 12, the others with 8. */
union lomvigast_event {
    uint8_t tag;
    struct lomvigast_transfer_event transfer;
    struct lomvigast_command_completion_event command_completion;
    struct lomvigast_port_status_change_event port_status_change;
};

/* A Link; or, with `link` false and 0s, any other TRB. */
struct lomvigast_link {
    uint64_t pointer; /* with the low four bits cleared */
    bool link;
    bool cleared; /* whether any of those bits was set */
    bool toggle;
    bool completion;
};

/* ---- Rings */

/* A command or transfer ring: the place at which the next TRB is looked for, and the cycle bit of a fresh one, 0 or 1. */
struct lomvigast_linked_ring {
    uint64_t place;
    uint64_t cycle;
};

/* What a chase came to. "Too many links" is not "nothing new": whether work waits is not known. */
enum lomvigast_answer {
    /* The TRB at the ring's place, after any Links that were followed, is stale. */
    LOMVIGAST_NOTHING_NEW = 0,
    /* A fresh TRB that is no Link; the ring's place is on it. */
    LOMVIGAST_TRB = 1,
    /* 256 links were followed, and one more fresh Link stands at the ring's place. */
    LOMVIGAST_TOO_MANY_LINKS = 2,
    /* Refused, with 1; the ring is as it was. */
    LOMVIGAST_REFUSED = 3
};

/* The answer, and what was met on the way: how many links were followed; whether one had low pointer bits set, which were
 * cleared; whether one had the interrupt-on-completion bit. */
struct lomvigast_chase {
    uint8_t answer;                   /* enum lomvigast_answer */
    struct lomvigast_refused refused; /* of LOMVIGAST_REFUSED */
    uint64_t address;                 /* these two of LOMVIGAST_TRB, else 0 */
    struct lomvigast_trb trb;
    uint16_t links;
    bool cleared;
    bool completion;
};

/* The state of an event ring, or of its reader: a word for each field, so that a new field changes no signature. A caller sets
 * none of them but by lomvigast_reset, lomvigast_configure and lomvigast_configure_reader, or to what it saved: values outside a
 * ring's limits are refused with 4, and others are believed. */
struct lomvigast_event_ring {
    uint64_t table;     /* the segment table's base */
    uint64_t place;     /* the present slot; of a reader, what the driver reports */
    uint64_t remaining; /* slots of the present segment, the present one among them */
    uint64_t index;     /* the present segment's entry */
    uint64_t entries;   /* of the table */
    uint64_t ready;     /* 1 if configured, else 0 */
    uint64_t cycle;     /* the cycle bit of this pass */
};

/* ---- Small answers, in registers */

/* A value, with refusal 0; or a refusal, with 0. */
struct lomvigast_number {
    uint64_t value;
    uint8_t refusal;
};

/* How far from the window's first byte a part begins, and its length; or the refusal's number, with 0s. */
struct lomvigast_part {
    uint64_t offset;
    uint32_t length;
    uint8_t refusal;
};

/* A completion code, with refusal 0; or refusal 12, with 0. */
struct lomvigast_coded {
    uint8_t refusal;
    uint8_t code;
};

/* ---- libtrb_ffi.a: TRBs and codes */

/* The command, or `unrecognized`. */
void lomvigast_parse_command(union lomvigast_command *out, uint64_t low, uint64_t high);

/* The TRB of a transfer ring, or `unrecognized`. */
void lomvigast_parse_transfer(union lomvigast_transfer *out, uint64_t low, uint64_t high);

/* 0, and the event in `out`; or a refusal's number (10, 12 or 11, in this order), beside 10 with the type shifted left by 8, and
 * `out` is as it was. */
uint16_t lomvigast_parse_event(union lomvigast_event *out, uint64_t low, uint64_t high);

/* The event's TRB, whose cycle bit is bit 0 of `cycle`; or 0 and, in `high`, a refusal's number, below LOMVIGAST_REFUSED_BELOW. */
struct lomvigast_trb lomvigast_event_bytes(const union lomvigast_event *event, uint64_t cycle);

/* The Link, if it is one. */
struct lomvigast_link lomvigast_parse_link(uint64_t low, uint64_t high);

/* The type number of any TRB. */
uint8_t lomvigast_trb_type(uint64_t low, uint64_t high);

/* The cycle bit of any TRB. */
bool lomvigast_cycle_bit(uint64_t low, uint64_t high);

/* The part of memory that a Normal or Data Stage TRB points at, of its pointer, length and immediate-data flag; refused with 13
 * or 1, in this order. It begins at `mem + offset`. */
struct lomvigast_part lomvigast_data(
    uint64_t start, const uint8_t *mem, size_t len, uint64_t pointer, uint32_t length, bool immediate);

/* The refusal of lomvigast_data alone, or 0. */
uint8_t lomvigast_data_refusal(
    uint64_t start, const uint8_t *mem, size_t len, uint64_t pointer, uint32_t length, bool immediate);

/* The completion code that a byte stands for, or refusal 12. */
struct lomvigast_coded lomvigast_code_of(uint8_t byte);

/* What a byte in the place of a code is: 0 listed, 1 reserved, 2 a vendor's error, 3 a vendor's information. */
uint8_t lomvigast_class_of(uint8_t byte);

/* ---- liblomvigast_ffi.a: memory */

/* Whether all of `length` bytes from `address` on are inside. */
bool lomvigast_inside(uint64_t start, const uint8_t *mem, size_t len, uint64_t address, uint64_t length);

/* The little-endian number of 2, 4 or 8 bytes at `address`; refused with 1. */
struct lomvigast_number lomvigast_read2(uint64_t start, const uint8_t *mem, size_t len, uint64_t address);
struct lomvigast_number lomvigast_read4(uint64_t start, const uint8_t *mem, size_t len, uint64_t address);
struct lomvigast_number lomvigast_read8(uint64_t start, const uint8_t *mem, size_t len, uint64_t address);

/* 0, and the TRB at `address` in `out`; or 1, and `out` is as it was. */
uint8_t lomvigast_read_trb(uint64_t start, const uint8_t *mem, size_t len, uint64_t address, struct lomvigast_trb *out);

/* Writes a TRB to `address`, all of it or nothing: 0, or 1. */
uint8_t lomvigast_write_trb(uint64_t start, uint8_t *mem, size_t len, uint64_t address, uint64_t low, uint64_t high);

/* ---- liblomvigast_ffi.a: command and transfer rings (xHCI 4.9.2, 4.11.5.1) */

/* Puts the ring at a place, aligned or not. */
void lomvigast_set_place(struct lomvigast_linked_ring *ring, uint64_t place, bool cycle);

/* Looks for a fresh TRB, and follows up to 256 Links on the way. */
struct lomvigast_chase lomvigast_next_trb(uint64_t start, const uint8_t *mem, size_t len, struct lomvigast_linked_ring *ring);

/* Goes on by one TRB, modulo 2^64. */
void lomvigast_advance(struct lomvigast_linked_ring *ring);

/* ---- liblomvigast_ffi.a: event rings and their readers (xHCI 4.9.4) */

/* A ring or reader that is not configured. */
void lomvigast_reset(struct lomvigast_event_ring *ring);

/* Puts it at the first slot of the first segment: 0; or 2, 3, 1 or 5, in this order. */
uint8_t lomvigast_configure(
    uint64_t start, const uint8_t *mem, size_t len, struct lomvigast_event_ring *ring, uint64_t table, uint16_t entries);
uint8_t lomvigast_configure_reader(
    uint64_t start, const uint8_t *mem, size_t len, struct lomvigast_event_ring *reader, uint64_t table, uint16_t entries);

/* Writes an event to the present slot and moves on, unless that would fill the last free slot. `report` is the place up to which
 * the driver has reported events as taken, ERDP with its low four bits cleared. 0; or 10, 12, 8, 4, 6, 1, 5 or 7, in this order. */
uint8_t lomvigast_add(
    uint64_t start, uint8_t *mem, size_t len, struct lomvigast_event_ring *ring, const union lomvigast_event *event, uint64_t report);

/* Takes the next event: 0, and its TRB in `out`; LOMVIGAST_NOTHING if the slot is stale; or 4, 1 or 5, in this order. `out` is as
 * it was unless the answer is 0: after another it may still hold the event before. */
uint8_t lomvigast_take(
    uint64_t start, const uint8_t *mem, size_t len, struct lomvigast_event_ring *reader, struct lomvigast_trb *out);

#ifdef __cplusplus
}
#endif

#endif
