// The floor of the speed comparison: what the core does, in plain C with nothing refused. No place, pointer, state or code is
// checked; a ring that is full and a chase of too many links are noticed, since these are answers.
// Little-endian machines only, as the archive.

#include <stdbool.h>
#include <stdint.h>
#include <string.h>

static uint64_t eight(const uint8_t *from)
{
    uint64_t value;
    memcpy(&value, from, 8);
    return value;
}

static uint32_t four(const uint8_t *from)
{
    uint32_t value;
    memcpy(&value, from, 4);
    return value;
}

static uint16_t two(const uint8_t *from)
{
    uint16_t value;
    memcpy(&value, from, 2);
    return value;
}

// ---- commands and transfers: the fields that a TRB of its kind has, the others untouched

struct parsed {
    uint8_t kind;
    bool flag, short_packet, chain, completion, immediate, direction;
    uint8_t context_type, endpoint, slot, request_type, request;
    uint16_t stream, value, index;
    uint32_t length;
    uint64_t pointer;
    uint8_t raw[16];
};

void floor_parse_command(const uint8_t *restrict trb, struct parsed *restrict p)
{
    uint8_t kind = trb[13] >> 2;
    p->kind = kind;
    switch (kind) {
    case 9: case 22: case 23:
        break;
    case 10: case 17:
        p->slot = trb[15];
        break;
    case 11: case 12:
        p->flag = trb[13] >> 1 & 1;
        p->pointer = eight(trb);
        p->slot = trb[15];
        break;
    case 13:
        p->pointer = eight(trb);
        p->slot = trb[15];
        break;
    case 14: case 15:
        p->endpoint = trb[14] & 31;
        p->slot = trb[15];
        break;
    case 16:
        p->flag = trb[0] & 1;
        p->context_type = trb[0] >> 1 & 7;
        p->pointer = eight(trb) & ~(uint64_t)15;
        p->stream = two(trb + 10);
        p->endpoint = trb[14] & 31;
        p->slot = trb[15];
        break;
    default:
        memcpy(p->raw, trb, 16);
    }
}

void floor_parse_transfer(const uint8_t *restrict trb, struct parsed *restrict p)
{
    uint8_t flags = trb[12];
    uint8_t kind = trb[13] >> 2;
    p->kind = kind;
    switch (kind) {
    case 3:
        p->direction = trb[14] & 1;
        // fall through
    case 1:
        p->pointer = eight(trb);
        p->length = four(trb + 8) & 0x1ffff;
        p->short_packet = flags >> 2 & 1;
        p->chain = flags >> 4 & 1;
        p->completion = flags >> 5 & 1;
        p->immediate = flags >> 6 & 1;
        break;
    case 2:
        p->request_type = trb[0];
        p->request = trb[1];
        p->value = two(trb + 2);
        p->index = two(trb + 4);
        p->length = two(trb + 6);
        p->completion = flags >> 5 & 1;
        break;
    case 4:
        p->chain = flags >> 4 & 1;
        p->completion = flags >> 5 & 1;
        p->direction = trb[14] & 1;
        break;
    case 5:
        break;
    case 7:
        p->pointer = eight(trb);
        p->chain = flags >> 4 & 1;
        p->completion = flags >> 5 & 1;
        break;
    case 8:
        p->chain = flags >> 4 & 1;
        p->completion = flags >> 5 & 1;
        break;
    default:
        memcpy(p->raw, trb, 16);
    }
}

// ---- events

struct event {
    uint64_t pointer;
    uint32_t length;
    uint8_t kind, code, endpoint, slot, port;
    bool event_data;
};

static void put(uint8_t *to, uint64_t pointer, uint32_t d2, uint32_t d3)
{
    memcpy(to, &pointer, 8);
    memcpy(to + 8, &d2, 4);
    memcpy(to + 12, &d3, 4);
}

void floor_event_bytes(const struct event *restrict e, bool cycle, uint8_t *restrict to)
{
    switch (e->kind) {
    case 32:
        put(to, e->pointer, e->length | (uint32_t)e->code << 24,
            cycle | e->event_data << 2 | 32 << 10 | e->endpoint << 16 | (uint32_t)e->slot << 24);
        break;
    case 33:
        put(to, e->pointer, e->length | (uint32_t)e->code << 24, cycle | 33 << 10 | (uint32_t)e->slot << 24);
        break;
    default:
        put(to, (uint64_t)e->port << 24, 1 << 24, cycle | 34 << 10);
    }
}

void floor_parse_event(const uint8_t *restrict trb, struct event *restrict e)
{
    uint8_t kind = trb[13] >> 2;
    e->kind = kind;
    switch (kind) {
    case 32:
        e->event_data = trb[12] >> 2 & 1;
        e->endpoint = trb[14];
        // fall through
    case 33:
        e->pointer = eight(trb);
        e->length = four(trb + 8) & 0xffffff;
        e->code = trb[11];
        e->slot = trb[15];
        break;
    default:
        e->port = trb[3];
    }
}

// ---- the link-following reader

struct linked_ring {
    uint64_t place;
    bool cycle;
};

struct chase {
    uint8_t kind; // 0 nothing new, 1 a TRB, 2 too many links
    uint8_t trb[16];
    uint64_t address;
    uint16_t links;
    bool cleared, completion;
};

void floor_next_trb(const uint8_t *restrict mem, struct linked_ring *restrict ring, struct chase *restrict c)
{
    struct linked_ring at = *ring;
    uint16_t links = 0;
    bool cleared = false, completion = false;
    const uint8_t *trb = mem + at.place;
    while ((trb[12] & 1) == at.cycle && trb[13] >> 2 == 6 && links != 256) {
        links++;
        cleared |= (trb[0] & 15) != 0;
        completion |= trb[12] >> 5 & 1;
        at.cycle ^= trb[12] >> 1 & 1;
        at.place = eight(trb) & ~(uint64_t)15;
        trb = mem + at.place;
    }
    *ring = at;
    c->links = links;
    c->cleared = cleared;
    c->completion = completion;
    if ((trb[12] & 1) != at.cycle) {
        c->kind = 0;
    } else if (trb[13] >> 2 == 6) {
        c->kind = 2;
    } else {
        c->kind = 1;
        c->address = at.place;
        memcpy(c->trb, trb, 16);
    }
}

void floor_advance(struct linked_ring *ring)
{
    ring->place += 16;
}

// ---- the event ring and its reader

struct event_ring {
    uint64_t table, place;
    uint32_t remaining;
    uint16_t entries, index;
    bool cycle;
};

static struct event_ring after(const uint8_t *mem, struct event_ring ring)
{
    if (ring.remaining != 1) {
        ring.place += 16;
        ring.remaining--;
        return ring;
    }
    ring.index = ring.index + 1 == ring.entries ? 0 : ring.index + 1;
    const uint8_t *entry = mem + ring.table + 16 * ring.index;
    ring.place = eight(entry);
    ring.remaining = four(entry + 8);
    ring.cycle ^= ring.index == 0;
    return ring;
}

// Whether the event was added; otherwise the ring is full.
bool floor_add(uint8_t *restrict mem, struct event_ring *restrict ring, const struct event *restrict e, uint64_t report)
{
    struct event_ring next = after(mem, *ring);
    if (next.place == report)
        return false;
    floor_event_bytes(e, ring->cycle, mem + ring->place);
    *ring = next;
    return true;
}

// Whether there was an event.
bool floor_take(const uint8_t *restrict mem, struct event_ring *restrict reader, uint8_t *restrict to)
{
    const uint8_t *trb = mem + reader->place;
    if ((trb[12] & 1) != reader->cycle)
        return false;
    memcpy(to, trb, 16);
    *reader = after(mem, *reader);
    return true;
}
