/* include/lomvigast.h as a C engineer uses it: every export is called, and what is wrong is printed. Run by header.rs. */
#include "lomvigast.h"

#include <stdio.h>
#include <string.h>

static int failures;

#define CHECK(what) \
    do { \
        if (!(what)) { \
            printf("%s, line %d: %s\n", __func__, __LINE__, #what); \
            failures++; \
        } \
    } while (0)

/* The sixteen bytes of a TRB, as its two numbers. */
static struct lomvigast_trb halves(const uint8_t bytes[16])
{
    struct lomvigast_trb trb;
    memcpy(&trb, bytes, sizeof trb);
    return trb;
}

static bool same(struct lomvigast_trb trb, const uint8_t bytes[16])
{
    return memcmp(&trb, bytes, sizeof trb) == 0;
}

static union lomvigast_command command(const uint8_t bytes[16])
{
    union lomvigast_command out;
    struct lomvigast_trb trb = halves(bytes);
    lomvigast_parse_command(&out, trb.low, trb.high);
    return out;
}

static union lomvigast_transfer transfer(const uint8_t bytes[16])
{
    union lomvigast_transfer out;
    struct lomvigast_trb trb = halves(bytes);
    lomvigast_parse_transfer(&out, trb.low, trb.high);
    return out;
}

static union lomvigast_event port(uint8_t port_id)
{
    union lomvigast_event event;
    event.port_status_change = (struct lomvigast_port_status_change_event){.tag = 34, .port_id = port_id};
    return event;
}

/* ---- The marked cases of document 01 */

static void e1_e2_e3(void)
{
    static const uint8_t e1[16] = {0, 0x10, 0, 0, 0, 0, 0, 0, 0, 0, 0, 1, 1, 0x84, 0, 1};
    static const uint8_t e2[16] = {0, 0, 0, 3, 0, 0, 0, 0, 0, 0, 0, 1, 0, 0x88, 0, 0};
    static const uint8_t e3[16] = {0x10, 0x20, 0, 0, 0, 0, 0, 0, 5, 0, 0, 0x0d, 5, 0x80, 3, 2};
    union lomvigast_event event, read;
    event.command_completion = (struct lomvigast_command_completion_event){
        .tag = 33, .command_trb_pointer = 0x1000, .completion_code = 1, .slot_id = 1};
    CHECK(same(lomvigast_event_bytes(&event, true), e1));
    CHECK(lomvigast_parse_event(&read, halves(e1).low, halves(e1).high) == 0);
    CHECK(read.tag == 33 && read.command_completion.command_trb_pointer == 0x1000);
    CHECK(read.command_completion.command_completion_parameter == 0);
    CHECK(read.command_completion.completion_code == 1 && read.command_completion.slot_id == 1);

    /* E1 has 1 in two fields and 0 in a third: once more with a value of its own in each. */
    static const uint8_t own[16] = {0, 0x10, [8] = 3, 4, 5, 13, 1, 33 << 2, 0, 2};
    event.command_completion = (struct lomvigast_command_completion_event){.tag = 33, .command_trb_pointer = 0x1000,
        .command_completion_parameter = 0x050403, .completion_code = 13, .slot_id = 2};
    CHECK(same(lomvigast_event_bytes(&event, true), own));
    CHECK(lomvigast_parse_event(&read, halves(own).low, halves(own).high) == 0);
    CHECK(read.command_completion.command_completion_parameter == 0x050403);
    CHECK(read.command_completion.completion_code == 13 && read.command_completion.slot_id == 2);

    event = port(3);
    CHECK(same(lomvigast_event_bytes(&event, false), e2));
    CHECK(lomvigast_parse_event(&read, halves(e2).low, halves(e2).high) == 0);
    CHECK(read.tag == 34 && read.port_status_change.port_id == 3);

    event.transfer = (struct lomvigast_transfer_event){.tag = 32, .trb_pointer = 0x2010, .trb_transfer_length = 5,
        .completion_code = 13, .event_data = true, .endpoint_id = 3, .slot_id = 2};
    CHECK(same(lomvigast_event_bytes(&event, true), e3));
    CHECK(lomvigast_parse_event(&read, halves(e3).low, halves(e3).high) == 0);
    CHECK(read.tag == 32 && read.transfer.trb_pointer == 0x2010 && read.transfer.trb_transfer_length == 5);
    CHECK(read.transfer.completion_code == 13 && read.transfer.event_data);
    CHECK(read.transfer.endpoint_id == 3 && read.transfer.slot_id == 2);
}

static void p1_p2_p4(void)
{
    static const uint8_t p1[16] = {8, [13] = 11 << 2};
    static const uint8_t p2[16] = {0x47, [10] = 0x34, 0x12, 1, 16 << 2};
    static const uint8_t link[16] = {[13] = 6 << 2}, optional[16] = {[13] = 18 << 2};
    union lomvigast_command c = command(p1);
    union lomvigast_transfer t = transfer(link);
    CHECK(c.tag == 0 && c.unrecognized.refused.number == LOMVIGAST_RESERVED);
    CHECK(memcmp(c.unrecognized.bytes, p1, 16) == 0);
    c = command(p2);
    CHECK(c.tag == 16 && c.dequeue.dequeue_cycle_state && c.dequeue.stream_context_type == 3);
    CHECK(c.dequeue.dequeue_pointer == 0x40 && c.dequeue.stream_id == 0x1234);
    CHECK(t.tag == 0 && t.unrecognized.refused.number == LOMVIGAST_TYPE && t.unrecognized.refused.trb_type == 6);
    CHECK(memcmp(t.unrecognized.bytes, link, 16) == 0);
    c = command(optional);
    CHECK(c.tag == 0 && c.unrecognized.refused.number == LOMVIGAST_OPTIONAL && c.unrecognized.refused.trb_type == 18);
}

static void l1_l2(void)
{
    uint8_t mem[16] = {[12] = 1, 6 << 2};
    struct lomvigast_linked_ring ring;
    lomvigast_set_place(&ring, 0, true);
    struct lomvigast_chase chase = lomvigast_next_trb(0, mem, sizeof mem, &ring);
    CHECK(chase.answer == LOMVIGAST_TOO_MANY_LINKS && chase.links == 256);
    CHECK(ring.place == 0 && ring.cycle == 1);
    mem[12] = 3;
    chase = lomvigast_next_trb(0, mem, sizeof mem, &ring);
    CHECK(chase.answer == LOMVIGAST_NOTHING_NEW && chase.links == 1);
    CHECK(ring.place == 0 && ring.cycle == 0);
}

/* A table at 0 of segments at 0x100 and 0x140 with these sizes; 0 for no second one. */
static struct lomvigast_event_ring configured(uint8_t mem[0x200], uint8_t first, uint8_t second)
{
    struct lomvigast_event_ring ring;
    memset(mem, 0, 0x200);
    mem[1] = 1, mem[8] = first;
    mem[16] = 0x40, mem[17] = 1, mem[24] = second;
    lomvigast_reset(&ring);
    CHECK(lomvigast_configure(0, mem, 0x200, &ring, 0, second ? 2 : 1) == 0);
    return ring;
}

static uint8_t add(uint8_t mem[0x200], struct lomvigast_event_ring *ring, uint64_t report)
{
    union lomvigast_event event = port(3);
    return lomvigast_add(0, mem, 0x200, ring, &event, report);
}

static void r1_r2_r3(void)
{
    uint8_t mem[0x200];
    struct lomvigast_event_ring ring = configured(mem, 2, 0);
    CHECK(ring.place == 0x100 && add(mem, &ring, 0x100) == 0 && ring.place == 0x110);
    CHECK(add(mem, &ring, 0x100) == LOMVIGAST_FULL && ring.place == 0x110);
    CHECK(add(mem, &ring, 0x110) == 0 && ring.place == 0x100);
    CHECK(add(mem, &ring, 0x110) == LOMVIGAST_FULL);
    CHECK(add(mem, &ring, 0x100) == 0 && mem[0x10c] == 0 && mem[0x11c] == 1);

    ring = configured(mem, 1, 0);
    for (int n = 0; n < 3; n++)
        CHECK(add(mem, &ring, 0x100) == LOMVIGAST_FULL);

    ring = configured(mem, 1, 1);
    CHECK(add(mem, &ring, 0x100) == 0 && ring.place == 0x140 && ring.index == 1);
    CHECK(add(mem, &ring, 0x100) == LOMVIGAST_FULL);
    CHECK(add(mem, &ring, 0x140) == 0 && ring.place == 0x100);
}

/* ---- Each kind of TRB, with a value of its own in each field */

static void commands(void)
{
    uint8_t trb[16] = {0x10, 2, 3, 4, 5, 6, 7, 8, 0, 0, 0x21, 0x22, 0, 0, 0x13, 0x31};
    const uint64_t pointer = 0x0807060504030210;
    for (uint8_t type = 9; type <= 23; type++) {
        trb[13] = type << 2 | 2;
        union lomvigast_command c = command(trb);
        bool refused = type >= 18 && type <= 21;
        CHECK(c.tag == (refused ? 0 : type));
        if (type == 10 || type == 17)
            CHECK(c.slot.slot_id == 0x31);
        if (type >= 11 && type <= 13)
            CHECK(c.context.input_context_pointer == pointer && c.context.slot_id == 0x31);
        if (type == 11 || type == 12)
            CHECK(c.context.flag);
        if (type == 14 || type == 15)
            CHECK(c.endpoint.endpoint_id == 0x13 && c.endpoint.slot_id == 0x31);
        if (type == 16) {
            CHECK(c.dequeue.dequeue_pointer == pointer && c.dequeue.stream_id == 0x2221);
            CHECK(c.dequeue.endpoint_id == 0x13 && c.dequeue.slot_id == 0x31);
            CHECK(!c.dequeue.dequeue_cycle_state && c.dequeue.stream_context_type == 0);
        }
        if (refused)
            CHECK(c.unrecognized.refused.number == LOMVIGAST_OPTIONAL && c.unrecognized.refused.trb_type == type);
    }
    trb[13] = 12 << 2;
    CHECK(!command(trb).context.flag);
}

static union lomvigast_transfer of_type(uint8_t type, uint8_t flags, uint8_t last)
{
    const uint8_t trb[16] = {1, 2, 3, 4, 5, 6, 7, 8, 9, 10, 11, 12, flags, type << 2, last};
    union lomvigast_transfer t = transfer(trb);
    CHECK(t.tag == type);
    return t;
}

static void transfers(void)
{
    const uint64_t pointer = 0x0807060504030201;
    /* Each bit of byte 12 by itself, and then none, with bit 0 of byte 14 alone. */
    for (unsigned bit = 1; bit <= 0x100; bit <<= 1) {
        uint8_t flags = bit & 0xff, last = bit >> 8;
        bool chain = flags == 0x10, completion = flags == 0x20, in = last == 1;
        union lomvigast_transfer t = of_type(1, flags, last);
        CHECK(t.normal.data_pointer == pointer && t.normal.transfer_length == 0x10a09);
        CHECK(t.normal.chain == chain && t.normal.interrupt_on_completion == completion);
        CHECK(t.normal.immediate_data == (flags == 0x40) && t.normal.interrupt_on_short == (flags == 4));
        t = of_type(2, flags, last);
        CHECK(t.setup_stage.request_type == 1 && t.setup_stage.request == 2 && t.setup_stage.value == 0x0403);
        CHECK(t.setup_stage.index == 0x0605 && t.setup_stage.length == 0x0807);
        CHECK(t.setup_stage.interrupt_on_completion == completion);
        t = of_type(3, flags, last);
        CHECK(t.data_stage.data_pointer == pointer && t.data_stage.transfer_length == 0x10a09);
        CHECK(t.data_stage.chain == chain && t.data_stage.interrupt_on_completion == completion);
        CHECK(t.data_stage.immediate_data == (flags == 0x40) && t.data_stage.interrupt_on_short == (flags == 4));
        CHECK(t.data_stage.direction == in);
        t = of_type(4, flags, last);
        CHECK(t.status_stage.chain == chain && t.status_stage.interrupt_on_completion == completion);
        CHECK(t.status_stage.direction == in);
        t = of_type(7, flags, last);
        CHECK(t.event_data.event_data == pointer && t.event_data.chain == chain);
        CHECK(t.event_data.interrupt_on_completion == completion);
        t = of_type(8, flags, last);
        CHECK(t.no_op.chain == chain && t.no_op.interrupt_on_completion == completion);
    }
    of_type(5, 0, 0);
}

/* ---- What the others answer */

static void refused_events(void)
{
    static const uint8_t other[16] = {[13] = 40 << 2};
    union lomvigast_event event = port(1), read = port(9);
    CHECK(lomvigast_parse_event(&read, halves(other).low, halves(other).high) == (LOMVIGAST_TYPE | 40 << 8));
    CHECK(read.tag == 34 && read.port_status_change.port_id == 9);
    event.tag = 35;
    CHECK(lomvigast_event_bytes(&event, true).high == LOMVIGAST_TYPE);
    event.transfer = (struct lomvigast_transfer_event){.tag = 32, .completion_code = 30};
    CHECK(lomvigast_event_bytes(&event, true).high == LOMVIGAST_CODE);
    event.transfer = (struct lomvigast_transfer_event){.tag = 32, .trb_transfer_length = 1 << 24};
    struct lomvigast_trb trb = lomvigast_event_bytes(&event, true);
    CHECK(trb.high == LOMVIGAST_EVENT && trb.low == 0);
    event.transfer = (struct lomvigast_transfer_event){.tag = 32};
    CHECK(lomvigast_event_bytes(&event, false).high >= LOMVIGAST_REFUSED_BELOW);
}

static void chases(void)
{
    /* A Link with all notes to 0x20, and there a TRB. */
    uint8_t mem[0x30] = {0x28, [12] = 0x21, 6 << 2, [0x20] = 1, 2, 3, 4, 5, 6, 7, 8, 9, 10, 11, 12, 1, 4, 15, 16};
    struct lomvigast_linked_ring ring;
    lomvigast_set_place(&ring, 0, true);
    struct lomvigast_chase chase = lomvigast_next_trb(0, mem, sizeof mem, &ring);
    CHECK(chase.answer == LOMVIGAST_TRB && chase.address == 0x20 && same(chase.trb, mem + 0x20));
    CHECK(chase.links == 1 && chase.cleared && chase.completion);
    CHECK(ring.place == 0x20 && ring.cycle == 1);
    mem[12] = 1;
    ring.place = 0;
    chase = lomvigast_next_trb(0, mem, sizeof mem, &ring);
    CHECK(chase.links == 1 && chase.cleared && !chase.completion);
    mem[0] = 0x20, mem[12] = 0x21;
    ring.place = 0;
    chase = lomvigast_next_trb(0, mem, sizeof mem, &ring);
    CHECK(chase.links == 1 && !chase.cleared && chase.completion && ring.place == 0x20);
    lomvigast_advance(&ring);
    CHECK(ring.place == 0x30 && ring.cycle == 1);
    chase = lomvigast_next_trb(0, mem, sizeof mem, &ring);
    CHECK(chase.answer == LOMVIGAST_REFUSED && chase.refused.number == LOMVIGAST_OUTSIDE);
    CHECK(chase.links == 0 && chase.address == 0 && chase.trb.low == 0 && chase.trb.high == 0);
    CHECK(ring.place == 0x30 && ring.cycle == 1);
    ring.place = UINT64_MAX;
    chase = lomvigast_next_trb(0, mem, sizeof mem, &ring);
    CHECK(chase.answer == LOMVIGAST_REFUSED && ring.place == UINT64_MAX);
    ring.place = 0xfffffffffffffff0;
    lomvigast_advance(&ring);
    CHECK(ring.place == 0);
}

static void memory(void)
{
    uint8_t mem[32] = {1, 2, 3, 4, 5, 6, 7, 8, 9, 10, 11, 12, 13, 14, 15, 16};
    struct lomvigast_trb trb = {7, 8};
    CHECK(lomvigast_inside(0, mem, 32, 31, 1) && !lomvigast_inside(0, mem, 32, 31, 2));
    CHECK(!lomvigast_inside(0, mem, 32, UINT64_MAX, 2));
    CHECK(lomvigast_read2(0, mem, 32, 0).value == 0x0201 && lomvigast_read2(0, mem, 32, 0).refusal == 0);
    CHECK(lomvigast_read4(0, mem, 32, 1).value == 0x05040302);
    CHECK(lomvigast_read8(0, mem, 32, 0).value == 0x0807060504030201);
    CHECK(lomvigast_read8(0, mem, 32, 25).refusal == LOMVIGAST_OUTSIDE && lomvigast_read8(0, mem, 32, 25).value == 0);
    CHECK(lomvigast_read_trb(0, mem, 32, 17, &trb) == LOMVIGAST_OUTSIDE && trb.low == 7 && trb.high == 8);
    CHECK(lomvigast_read_trb(0, mem, 32, 0, &trb) == 0 && same(trb, mem));
    CHECK(lomvigast_write_trb(0, mem, 32, 17, trb.low, trb.high) == LOMVIGAST_OUTSIDE && mem[31] == 0);
    CHECK(lomvigast_write_trb(0, mem, 32, 16, trb.low, trb.high) == 0 && memcmp(mem, mem + 16, 16) == 0);
    struct lomvigast_part part = lomvigast_data(0, mem, 32, 2, 30, false);
    CHECK(part.offset == 2 && part.length == 30 && part.refusal == 0);
    part = lomvigast_data(0, mem, 32, 2, 31, false);
    CHECK(part.offset == 0 && part.length == 0 && part.refusal == LOMVIGAST_OUTSIDE);
    CHECK(lomvigast_data(0, mem, 32, 2, 31, true).refusal == LOMVIGAST_IMMEDIATE);
    CHECK(lomvigast_data_refusal(0, mem, 32, 2, 31, false) == LOMVIGAST_OUTSIDE);
    CHECK(lomvigast_data_refusal(0, mem, 32, 2, 30, false) == 0);
}

static void small_answers(void)
{
    static const uint8_t link[16] = {0x48, [12] = 0x23, 6 << 2}, other[16] = {1, [12] = 2, 7 << 2};
    struct lomvigast_link l = lomvigast_parse_link(halves(link).low, halves(link).high);
    CHECK(l.link && l.pointer == 0x40 && l.cleared && l.toggle && l.completion);
    l = lomvigast_parse_link(halves(other).low, halves(other).high);
    CHECK(!l.link && l.pointer == 0 && !l.cleared && !l.toggle && !l.completion);
    CHECK(lomvigast_trb_type(halves(link).low, halves(link).high) == 6 && lomvigast_cycle_bit(halves(link).low, halves(link).high));
    CHECK(lomvigast_trb_type(halves(other).low, halves(other).high) == 7 && !lomvigast_cycle_bit(halves(other).low, halves(other).high));
    CHECK(lomvigast_code_of(36).code == 36 && lomvigast_code_of(36).refusal == 0);
    CHECK(lomvigast_code_of(30).code == 0 && lomvigast_code_of(30).refusal == LOMVIGAST_CODE);
    CHECK(lomvigast_class_of(36) == 0 && lomvigast_class_of(37) == 1 && lomvigast_class_of(192) == 2 && lomvigast_class_of(224) == 3);
}

static void readers(void)
{
    uint8_t mem[0x200];
    struct lomvigast_event_ring ring = configured(mem, 2, 1), reader;
    struct lomvigast_trb trb = {7, 8};
    lomvigast_reset(&reader);
    CHECK(lomvigast_take(0, mem, sizeof mem, &reader, &trb) == LOMVIGAST_STATE);
    CHECK(lomvigast_configure_reader(0, mem, sizeof mem, &reader, 1, 1) == LOMVIGAST_TABLE_BASE);
    CHECK(lomvigast_configure_reader(0, mem, sizeof mem, &reader, 0, 17) == LOMVIGAST_TABLE_ENTRIES);
    CHECK(lomvigast_configure_reader(0, mem, sizeof mem, &reader, 0x200, 1) == LOMVIGAST_OUTSIDE);
    CHECK(lomvigast_configure_reader(0, mem, sizeof mem, &reader, 0, 2) == 0 && memcmp(&ring, &reader, sizeof ring) == 0);
    CHECK(lomvigast_take(0, mem, sizeof mem, &reader, &trb) == LOMVIGAST_NOTHING && trb.low == 7 && trb.high == 8);
    for (int n = 0; n < 6; n++) {
        CHECK(add(mem, &ring, reader.place) == 0);
        uint64_t slot = reader.place;
        CHECK(lomvigast_take(0, mem, sizeof mem, &reader, &trb) == 0 && same(trb, mem + slot));
        CHECK(memcmp(&ring, &reader, sizeof ring) == 0);
    }
}

/* ---- A window of 0x200 bytes that begins at `start` */

static void window_read_and_written(uint64_t start)
{
    uint8_t mem[0x200] = {1, 2, 3, 4, 5, 6, 7, 8, 9, 10, 11, 12, 13, 14, 15, 16};
    struct lomvigast_trb trb = {7, 8};
    CHECK(lomvigast_inside(start, mem, sizeof mem, start, 0x200) && !lomvigast_inside(start, mem, sizeof mem, start, 0x201));
    CHECK(!lomvigast_inside(start, mem, sizeof mem, start - 1, 1) && !lomvigast_inside(start, mem, sizeof mem, 0, 1));
    CHECK(lomvigast_read2(start, mem, sizeof mem, start + 1).value == 0x0302);
    CHECK(lomvigast_read4(start, mem, sizeof mem, start + 1).value == 0x05040302);
    CHECK(lomvigast_read8(start, mem, sizeof mem, start + 1).value == 0x0908070605040302);
    CHECK(lomvigast_read8(start, mem, sizeof mem, 1).refusal == LOMVIGAST_OUTSIDE);
    CHECK(lomvigast_read_trb(start, mem, sizeof mem, start - 16, &trb) == LOMVIGAST_OUTSIDE && trb.low == 7 && trb.high == 8);
    CHECK(lomvigast_read_trb(start, mem, sizeof mem, start, &trb) == 0 && same(trb, mem));
    CHECK(lomvigast_write_trb(start, mem, sizeof mem, start + 0x1f1, trb.low, trb.high) == LOMVIGAST_OUTSIDE);
    CHECK(mem[0x1ff] == 0 && lomvigast_write_trb(start, mem, sizeof mem, start + 0x1f0, trb.low, trb.high) == 0);
    CHECK(memcmp(mem, mem + 0x1f0, 16) == 0);
    struct lomvigast_part part = lomvigast_data(start, mem, sizeof mem, start + 2, 0x1fe, false);
    CHECK(part.offset == 2 && part.length == 0x1fe && part.refusal == 0);
    part = lomvigast_data(start, mem, sizeof mem, start - 1, 0, false);
    CHECK(part.offset == 0 && part.length == 0 && part.refusal == LOMVIGAST_OUTSIDE);
    CHECK(lomvigast_data_refusal(start, mem, sizeof mem, start + 2, 0x1ff, false) == LOMVIGAST_OUTSIDE);
    /* The empty part at the end: where the end is 2^64 it has no address. */
    CHECK(lomvigast_data_refusal(start, mem, sizeof mem, start + 0x200, 0, false) == (start + 0x200 == 0 ? LOMVIGAST_OUTSIDE : 0));
}

static void window_walked(uint64_t start)
{
    uint8_t mem[0x200] = {[12] = 1, 6 << 2};
    uint64_t last = start + 0x1f0;
    memcpy(mem, &last, sizeof last);
    mem[0x1fc] = 1;
    struct lomvigast_linked_ring ring = {start, 1};
    struct lomvigast_chase chase = lomvigast_next_trb(start, mem, sizeof mem, &ring);
    CHECK(chase.answer == LOMVIGAST_TRB && chase.address == last && same(chase.trb, mem + 0x1f0) && ring.place == last);
    lomvigast_advance(&ring);
    CHECK(ring.place == start + 0x200);
    chase = lomvigast_next_trb(start, mem, sizeof mem, &ring);
    CHECK(chase.answer == LOMVIGAST_REFUSED && chase.refused.number == LOMVIGAST_OUTSIDE);
    last = start - 16;
    memcpy(mem, &last, sizeof last);
    ring.place = start;
    chase = lomvigast_next_trb(start, mem, sizeof mem, &ring);
    CHECK(chase.answer == LOMVIGAST_REFUSED && ring.place == start);
}

/* The segment is the window's last four slots. */
static void window_filled(uint64_t start)
{
    uint8_t mem[0x200] = {[8] = 4};
    uint64_t base = start + 0x1c0;
    struct lomvigast_event_ring ring, reader;
    union lomvigast_event event = port(3);
    struct lomvigast_trb trb;
    memcpy(mem, &base, sizeof base);
    CHECK(lomvigast_configure(start, mem, sizeof mem, &ring, start - 64, 1) == LOMVIGAST_OUTSIDE);
    CHECK(lomvigast_configure(start, mem, sizeof mem, &ring, start, 1) == 0 && ring.place == base && ring.remaining == 4);
    CHECK(lomvigast_configure_reader(start, mem, sizeof mem, &reader, start, 1) == 0);
    CHECK(lomvigast_take(start, mem, sizeof mem, &reader, &trb) == LOMVIGAST_NOTHING);
    for (int n = 0; n < 9; n++) {
        size_t slot = 0x1c0 + 16 * (n % 4);
        CHECK(lomvigast_add(start, mem, sizeof mem, &ring, &event, reader.place) == 0);
        CHECK(lomvigast_take(start, mem, sizeof mem, &reader, &trb) == 0 && same(trb, mem + slot));
    }
    mem[8] = 5;
    CHECK(lomvigast_configure(start, mem, sizeof mem, &ring, start, 1) == LOMVIGAST_SEGMENT);
    mem[8] = 4, base = start - 64;
    memcpy(mem, &base, sizeof base);
    CHECK(lomvigast_configure(start, mem, sizeof mem, &ring, start, 1) == LOMVIGAST_SEGMENT);
}

static void windows(void)
{
    /* One that begins high, and one that ends at 2^64. */
    static const uint64_t starts[] = {0x123456000, -(uint64_t)0x200};
    for (size_t n = 0; n < sizeof starts / sizeof *starts; n++) {
        window_read_and_written(starts[n]);
        window_walked(starts[n]);
        window_filled(starts[n]);
    }
}

/* Words that no field can hold are refused with 4, and are then as they were: each word of a good state, made too large. */
static void hostile_states(void)
{
    uint8_t mem[0x200], before[0x200];
    const struct lomvigast_event_ring good = configured(mem, 2, 1);
    struct lomvigast_trb trb = {7, 8};
    memcpy(before, mem, sizeof mem);
    for (size_t word = 0; word < sizeof good / sizeof(uint64_t); word++) {
        for (int bit = 0; bit < 64; bit++) {
            struct lomvigast_event_ring state = good, given;
            uint64_t value;
            memcpy(&value, (const char *)&good + 8 * word, 8);
            value ^= (uint64_t)1 << bit;
            memcpy((char *)&state + 8 * word, &value, 8);
            given = state;
            bool fits = given.remaining >> 32 == 0 && given.index >> 16 == 0 && given.entries >> 16 == 0
                && given.ready < 2 && given.cycle < 2;
            if (fits)
                continue;
            CHECK(add(mem, &state, 0x100) == LOMVIGAST_STATE && memcmp(&state, &given, sizeof state) == 0);
            CHECK(lomvigast_take(0, mem, sizeof mem, &state, &trb) == LOMVIGAST_STATE);
            CHECK(memcmp(&state, &given, sizeof state) == 0 && trb.low == 7 && trb.high == 8);
        }
    }
    CHECK(memcmp(mem, before, sizeof mem) == 0);
}

int main(void)
{
    e1_e2_e3();
    p1_p2_p4();
    l1_l2();
    r1_r2_r3();
    commands();
    transfers();
    refused_events();
    chases();
    memory();
    small_answers();
    readers();
    windows();
    hostile_states();
    return failures != 0;
}
