// The device of 01 in plain C, written by hand, and the mixes of crates/speed run on it: the time to measure the proved device
// against, and a second opinion on each of its answers. bench/run makes mix.h of crates/speed/src/mix.rt.
#include <stdbool.h>
#include <stdint.h>
#include <stdio.h>
#include <stdlib.h>
#include <string.h>
#include "mix.h"

// State.

struct core {
    uint32_t status;
    uint32_t enable;
    uint64_t mail[4];
};

// Bit i of each word and byte i of the routes belong to source i.
struct bridge {
    uint64_t mask;
    uint64_t msi;
    uint64_t edge;
    uint64_t latch;
    uint64_t soft;
    uint64_t level;
    uint64_t turn_mode;
    uint64_t turn;
    uint8_t routes[64];
};

// The node's 32 sources; 0 and 1 are driven by the bridge's lines, the others by their levels.
struct node {
    uint32_t enable;
    uint32_t edge;
    uint32_t latch;
    uint32_t level;
    uint8_t routes[32];
};

struct device {
    struct core core[2];
    struct bridge bridge;
    bool gate;
    struct node node;
    bool second_open;
};

// Steps and answers.

enum kind { BUS_READ, BUS_WRITE, PRIVATE_READ, PRIVATE_WRITE, BRIDGE_READ, BRIDGE_WRITE, INPUT, WINDOW_SWITCH, RESET, NODE_INPUT, WHICH };

enum refusal { ACCEPTED, NO_CORE, NO_REGISTER, CLOSED, BAD_WIDTH, NO_RIGHT, BAD_VALUE, NO_SOURCE, BAD_DISTRIBUTION,
               NONE_IN_SERVICE };

struct step {
    enum kind kind;
    uint64_t unit;   // the issuing core, or the register of the bridge
    uint64_t place;  // the address, the offset, the source or the output
    uint64_t width;
    uint64_t value;  // of an input, its level; of the window switch, whether it opens
};

struct answer {
    uint64_t value;
    uint64_t moved; // the bits that a write moved
    enum refusal refusal;
    bool ipi[2];
    bool bridge[2];
    uint8_t pins; // core c and pin p as bit 4 * c + p
};

// Registers.

#define FIRST_WINDOW 0x1fe00000
#define SECOND_WINDOW 0x3ff00000
#define WINDOW_SIZE 0x1500

enum { GATE = 0x0420, GATE_HIGH = 0x0424, STATUS = 0x1000, ENABLE = 0x1004, SET = 0x1008, CLEAR = 0x100c,
       MAIL = 0x1020, MAIL_END = 0x1040, IPI_SEND = 0x1040, MAIL_SEND = 0x1048, CORES_END = 0x1200,
       ENTRY = 0x1400, ENTRY_END = 0x1420, INTISR = 0x1420, INTEN = 0x1424, INTENSET = 0x1428, INTENCLR = 0x142c, INTEDGE_NODE = 0x1434,
       CORE0_INTISR = 0x1440, CORE1_INTISR = 0x1448, PER_CORE_INTISR = 0x1010 };

enum bridge_register { INT_MASK, MSI_EN, INTEDGE, SOFT_INT, AUTO_CTRL0, AUTO_CTRL1, INTCLR, INTISR_CHIP0, INTISR_CHIP1, INTIRR,
                       ROUTE_ENTRY };

static void device_reset(struct device *d)
{
    uint64_t level = d->bridge.level;
    uint32_t node_level = d->node.level;

    memset(d, 0, sizeof *d); // closes the second window too
    d->bridge.mask = UINT64_MAX;
    d->bridge.level = level;
    d->node.level = node_level;
}

// Messages. Offsets are those of core 0.

static bool is_mail(uint64_t offset)
{
    return MAIL <= offset && offset < MAIL_END && offset % 4 == 0;
}

static bool is_message_register(uint64_t offset)
{
    return offset == STATUS || offset == ENABLE || offset == SET || offset == CLEAR || is_mail(offset);
}

static enum refusal core_read(const struct core *c, uint64_t offset, uint64_t width, uint64_t *value)
{
    if (is_mail(offset)) {
        uint64_t word = c->mail[(offset - MAIL) / 8];

        if (width == 8 && offset % 8 == 0) {
            *value = word;
            return ACCEPTED;
        }
        if (width != 4)
            return BAD_WIDTH;
        *value = offset % 8 == 0 ? (uint32_t)word : word >> 32;
        return ACCEPTED;
    }
    switch (offset) {
    case STATUS:
        if (width != 4)
            return BAD_WIDTH;
        *value = c->status;
        return ACCEPTED;
    case ENABLE:
        if (width != 4)
            return BAD_WIDTH;
        *value = c->enable;
        return ACCEPTED;
    case SET:
    case CLEAR:
        return width != 4 ? BAD_WIDTH : NO_RIGHT;
    default:
        return NO_REGISTER;
    }
}

static enum refusal core_write(struct core *c, uint64_t offset, uint64_t width, uint64_t value, uint64_t *moved)
{
    if (is_mail(offset)) {
        uint64_t *word = &c->mail[(offset - MAIL) / 8];

        if (width == 8 && offset % 8 == 0) {
            *moved = *word ^ value;
            *word = value;
            return ACCEPTED;
        }
        if (width != 4)
            return BAD_WIDTH;
        if (value > UINT32_MAX)
            return BAD_VALUE;
        if (offset % 8 == 0)
            *moved = (uint32_t)*word ^ value;
        else
            *moved = (*word >> 32 ^ value) << 32;
        *word ^= *moved;
        return ACCEPTED;
    }
    if (!is_message_register(offset))
        return NO_REGISTER;
    if (width != 4)
        return BAD_WIDTH;
    if (offset == STATUS)
        return NO_RIGHT;
    if (value > UINT32_MAX)
        return BAD_VALUE;
    switch (offset) {
    case ENABLE:
        *moved = c->enable ^ value;
        c->enable = value;
        break;
    case SET:
        *moved = value & ~c->status;
        c->status |= value;
        break;
    case CLEAR:
        *moved = value & c->status;
        c->status &= ~value;
        break;
    }
    return ACCEPTED;
}

// The sends.

static enum refusal ipi_send(struct device *d, uint64_t width, uint64_t value, uint64_t *moved)
{
    uint64_t target = value >> 16 & 0x3ff;
    uint32_t vector = 1u << (value & 31);

    if (width != 4)
        return BAD_WIDTH;
    if (value > UINT32_MAX)
        return BAD_VALUE;
    if (target > 1)
        return NO_CORE;
    *moved = vector & ~d->core[target].status;
    d->core[target].status |= vector;
    return ACCEPTED;
}

// The bytes that a mask lets through: a set bit j keeps byte j as it was. Unrolled, since with a jump for each byte a step of the mix messages takes up to a tenth longer.
static uint32_t written_bytes(unsigned mask)
{
    uint32_t written = 0;

#pragma GCC unroll 4
    for (unsigned j = 0; j < 4; j++)
        if (!(mask >> j & 1))
            written |= 0xffu << 8 * j;
    return written;
}

static enum refusal mail_send(struct device *d, uint64_t width, uint64_t value, uint64_t *moved)
{
    uint64_t target = value >> 16 & 0x3ff;
    unsigned half = value >> 2 & 7;
    unsigned shift = half % 2 * 32;
    uint64_t written = (uint64_t)written_bytes(value >> 27 & 15) << shift;
    uint64_t *word;

    if (width != 8)
        return BAD_WIDTH;
    if (target > 1)
        return NO_CORE;
    word = &d->core[target].mail[half / 2];
    *moved = (*word ^ value >> 32 << shift) & written;
    *word ^= *moved;
    return ACCEPTED;
}

// The bridge's sources.

static uint64_t bridge_requests(const struct bridge *b)
{
    return (b->edge & b->latch) | (~b->edge & (b->level | b->soft));
}

static uint64_t bridge_pending(const struct bridge *b)
{
    return bridge_requests(b) & ~b->mask & ~b->msi;
}

// The outputs that a source shows on, a bit for each: those that it is routed to, but in turn mode with both only the one at turn.
static unsigned bridge_shown(const struct bridge *b, unsigned source)
{
    unsigned route = b->routes[source];

    return route == 3 && b->turn_mode >> source & 1 ? 1u << (b->turn >> source & 1) : route;
}

static uint64_t bridge_in_service(const struct bridge *b, unsigned k)
{
    uint64_t word = 0;

    for (uint64_t p = bridge_pending(b); p != 0; p &= p - 1)
        if (bridge_shown(b, __builtin_ctzll(p)) >> k & 1)
            word |= p & -p;
    return word;
}

// The lowest source that shows in INTISR_CHIPk.
static enum refusal bridge_which(const struct bridge *b, unsigned k, uint64_t *value)
{
    for (uint64_t p = bridge_pending(b); p != 0; p &= p - 1) {
        unsigned source = __builtin_ctzll(p);

        if (bridge_shown(b, source) >> k & 1) {
            *value = source;
            return ACCEPTED;
        }
    }
    return NONE_IN_SERVICE;
}

// The outputs that some pending source shows on, a bit for each. Sources in fixed mode come first: their routes say it all.
static unsigned bridge_outputs(const struct bridge *b)
{
    uint64_t pending = bridge_pending(b);
    unsigned outputs = 0;

    for (uint64_t p = pending & ~b->turn_mode; p != 0 && outputs != 3; p &= p - 1)
        outputs |= b->routes[__builtin_ctzll(p)];
    for (uint64_t p = pending & b->turn_mode; p != 0 && outputs != 3; p &= p - 1)
        outputs |= bridge_shown(b, __builtin_ctzll(p));
    return outputs;
}

// The node.

// The bridge's lines at the node, behind the gate.
static unsigned device_lines(const struct device *d)
{
    return d->gate ? bridge_outputs(&d->bridge) : 0;
}

static uint32_t node_drive(const struct node *n, unsigned lines)
{
    return (n->level & ~3u) | lines;
}

static uint32_t node_requests(const struct node *n, unsigned lines)
{
    return (n->edge & n->latch) | (~n->edge & node_drive(n, lines));
}

static uint32_t node_status(const struct node *n, unsigned lines, unsigned core)
{
    uint32_t word = 0;

    for (uint32_t p = node_requests(n, lines) & n->enable; p != 0; p &= p - 1)
        if (n->routes[__builtin_ctz(p)] >> core & 1)
            word |= p & -p;
    return word;
}

static unsigned node_pins(const struct node *n, unsigned lines)
{
    unsigned pins = 0;

    for (uint32_t p = node_requests(n, lines) & n->enable; p != 0; p &= p - 1) {
        unsigned route = n->routes[__builtin_ctz(p)];

        if (route & 1)
            pins |= route >> 4;
        if (route & 2)
            pins |= route & 0xf0;
    }
    return pins;
}

static bool is_entry(uint64_t offset)
{
    return ENTRY <= offset && offset < ENTRY_END;
}

static bool is_node_register(uint64_t offset)
{
    return is_entry(offset) || offset == INTISR || offset == INTEN || offset == INTENSET || offset == INTENCLR
        || offset == INTEDGE_NODE || offset == CORE0_INTISR || offset == CORE1_INTISR;
}

static enum refusal node_read(const struct device *d, uint64_t offset, uint64_t width, uint64_t *value)
{
    const struct node *n = &d->node;

    if (!is_node_register(offset))
        return NO_REGISTER;
    if (width != (is_entry(offset) ? 1 : 4))
        return BAD_WIDTH;
    switch (offset) {
    case INTISR:
        *value = node_requests(n, device_lines(d));
        break;
    case INTEN:
    case INTENSET:
    case INTENCLR:
        *value = n->enable;
        break;
    case INTEDGE_NODE:
        *value = n->edge;
        break;
    case CORE0_INTISR:
        *value = node_status(n, device_lines(d), 0);
        break;
    case CORE1_INTISR:
        *value = node_status(n, device_lines(d), 1);
        break;
    default:
        *value = n->routes[offset - ENTRY];
        break;
    }
    return ACCEPTED;
}

static enum refusal node_write(struct node *n, uint64_t offset, uint64_t width, uint64_t value, uint64_t *moved)
{
    if (!is_node_register(offset))
        return NO_REGISTER;
    if (width != (is_entry(offset) ? 1 : 4))
        return BAD_WIDTH;
    if (offset == INTISR || offset == INTEN || offset == CORE0_INTISR || offset == CORE1_INTISR)
        return NO_RIGHT;
    if (value > (is_entry(offset) ? UINT8_MAX : UINT32_MAX))
        return BAD_VALUE;
    switch (offset) {
    case INTENSET:
        *moved = value & ~n->enable;
        n->enable |= value;
        break;
    case INTENCLR: // the latch goes with the enable
        *moved = value & n->enable;
        n->enable &= ~value;
        n->latch &= ~value;
        break;
    case INTEDGE_NODE: // a source taken from edge to level mode loses its latch
        *moved = n->edge ^ value;
        n->latch &= ~n->edge | value;
        n->edge = value;
        break;
    default: // bits 3..2 name cores that are not there
        *moved = n->routes[offset - ENTRY] ^ (value & 0xf3);
        n->routes[offset - ENTRY] = value & 0xf3;
        break;
    }
    return ACCEPTED;
}

static enum refusal node_input(struct node *n, uint64_t source, bool level)
{
    uint32_t bit;

    if (source < 2 || source > 31)
        return NO_SOURCE;
    bit = 1u << source;
    n->level = level ? n->level | bit : n->level & ~bit;
    return ACCEPTED;
}

// The private windows.

static enum refusal private_read(const struct device *d, const struct step *s, uint64_t *value)
{
    if (s->unit > 1)
        return NO_CORE;
    if (s->place == IPI_SEND)
        return s->width != 4 ? BAD_WIDTH : NO_RIGHT;
    if (s->place == MAIL_SEND)
        return s->width != 8 ? BAD_WIDTH : NO_RIGHT;
    if (s->place == PER_CORE_INTISR)
        return node_read(d, s->unit == 0 ? CORE0_INTISR : CORE1_INTISR, s->width, value);
    if (s->place >= ENTRY)
        return node_read(d, s->place, s->width, value);
    return core_read(&d->core[s->unit], s->place, s->width, value);
}

static enum refusal private_write(struct device *d, const struct step *s, uint64_t *moved)
{
    if (s->unit > 1)
        return NO_CORE;
    if (s->place == IPI_SEND)
        return ipi_send(d, s->width, s->value, moved);
    if (s->place == MAIL_SEND)
        return mail_send(d, s->width, s->value, moved);
    if (s->place == PER_CORE_INTISR)
        return node_write(&d->node, CORE0_INTISR, s->width, s->value, moved);
    if (s->place >= ENTRY)
        return node_write(&d->node, s->place, s->width, s->value, moved);
    return core_write(&d->core[s->unit], s->place, s->width, s->value, moved);
}

// The bus windows. The gate stands in the first alone.

static enum refusal gate_read(const struct device *d, uint64_t offset, uint64_t width, uint64_t *value)
{
    if (width != 4 && (width != 8 || offset != GATE))
        return BAD_WIDTH;
    if (width == 8)
        *value = (uint64_t)d->gate << 48;
    else if (offset == GATE_HIGH)
        *value = (uint64_t)d->gate << 16;
    return ACCEPTED;
}

static enum refusal gate_write(struct device *d, uint64_t offset, uint64_t width, uint64_t value, uint64_t *moved)
{
    bool gate = d->gate;

    if (width != 4 && (width != 8 || offset != GATE))
        return BAD_WIDTH;
    if (width == 4 && value > UINT32_MAX)
        return BAD_VALUE;
    if (width == 8)
        d->gate = value >> 48 & 1;
    else if (offset == GATE_HIGH)
        d->gate = value >> 16 & 1;
    *moved = (uint64_t)(gate ^ d->gate) << 48;
    return ACCEPTED;
}

// Gives the offset of an address in its window, and whether that window is the second; an address in neither has an offset past both.
static uint64_t bus_offset(uint64_t address, bool *second)
{
    *second = address - SECOND_WINDOW < WINDOW_SIZE;
    return address - (*second ? SECOND_WINDOW : FIRST_WINDOW);
}

// A register that both windows have.
static bool is_bus_register(uint64_t offset)
{
    return offset < CORES_END ? is_message_register(offset & ~0x100ull) : is_node_register(offset);
}

static enum refusal bus_read(const struct device *d, const struct step *s, uint64_t *value)
{
    bool second;
    uint64_t offset = bus_offset(s->place, &second);

    if (!second && (offset == GATE || offset == GATE_HIGH))
        return gate_read(d, offset, s->width, value);
    if (offset < STATUS || offset >= WINDOW_SIZE)
        return NO_REGISTER;
    if (second && !d->second_open)
        return is_bus_register(offset) ? CLOSED : NO_REGISTER;
    if (offset >= CORES_END)
        return node_read(d, offset, s->width, value);
    return core_read(&d->core[offset >> 8 & 1], offset & ~0x100ull, s->width, value);
}

static enum refusal bus_write(struct device *d, const struct step *s, uint64_t *moved)
{
    bool second;
    uint64_t offset = bus_offset(s->place, &second);

    if (!second && (offset == GATE || offset == GATE_HIGH))
        return gate_write(d, offset, s->width, s->value, moved);
    if (offset < STATUS || offset >= WINDOW_SIZE)
        return NO_REGISTER;
    if (second && !d->second_open)
        return is_bus_register(offset) ? CLOSED : NO_REGISTER;
    if (offset >= CORES_END)
        return node_write(&d->node, offset, s->width, s->value, moved);
    return core_write(&d->core[offset >> 8 & 1], offset & ~0x100ull, s->width, s->value, moved);
}

// Bridge accesses.

// The requests were as given: in turn mode, where one has fallen, the turn goes to the output after the one just used.
static void bridge_turns(struct bridge *b, uint64_t before)
{
    for (uint64_t f = before & ~bridge_requests(b) & b->turn_mode; f != 0; f &= f - 1) {
        uint64_t bit = f & -f;

        switch (b->routes[__builtin_ctzll(f)]) {
        case 1:
            b->turn |= bit;
            break;
        case 2:
            b->turn &= ~bit;
            break;
        case 3:
            b->turn ^= bit;
            break;
        }
    }
}

// New input levels and soft bits: in edge mode a source whose drive rises is latched.
static void bridge_drive(struct bridge *b, uint64_t level, uint64_t soft)
{
    uint64_t before = bridge_requests(b);

    b->latch |= (level | soft) & ~(b->level | b->soft) & b->edge;
    b->level = level;
    b->soft = soft;
    bridge_turns(b, before);
}

// New modes: a source taken from edge to level mode loses its latch.
static void bridge_modes(struct bridge *b, uint64_t edge)
{
    uint64_t before = bridge_requests(b);

    b->latch &= ~b->edge | edge;
    b->edge = edge;
    bridge_turns(b, before);
}

static void bridge_clear(struct bridge *b, uint64_t latches)
{
    uint64_t before = bridge_requests(b);

    b->latch &= ~latches;
    bridge_turns(b, before);
}

static enum refusal bridge_read(const struct bridge *b, uint64_t reg, uint64_t source, uint64_t *value)
{
    switch (reg) {
    case INT_MASK:
        *value = b->mask;
        break;
    case MSI_EN:
        *value = b->msi;
        break;
    case INTEDGE:
        *value = b->edge;
        break;
    case SOFT_INT:
        *value = b->soft;
        break;
    case AUTO_CTRL0:
        *value = b->turn_mode;
        break;
    case AUTO_CTRL1:
        break;
    case INTCLR:
        return NO_RIGHT;
    case INTISR_CHIP0:
    case INTISR_CHIP1:
        *value = bridge_in_service(b, reg - INTISR_CHIP0);
        break;
    case INTIRR:
        *value = bridge_requests(b);
        break;
    default:
        if (source > 63)
            return NO_SOURCE;
        *value = b->routes[source];
        break;
    }
    return ACCEPTED;
}

static enum refusal bridge_write(struct bridge *b, uint64_t reg, uint64_t source, uint64_t value, uint64_t *moved)
{
    switch (reg) {
    case INT_MASK:
        *moved = b->mask ^ value;
        b->mask = value;
        break;
    case MSI_EN:
        *moved = b->msi ^ value;
        b->msi = value;
        break;
    case INTEDGE:
        *moved = b->edge ^ value;
        bridge_modes(b, value);
        break;
    case SOFT_INT:
        *moved = b->soft ^ value;
        bridge_drive(b, b->level, value);
        break;
    case AUTO_CTRL0:
        *moved = b->turn_mode ^ value;
        b->turn_mode = value;
        break;
    case AUTO_CTRL1:
        if (value != 0)
            return BAD_DISTRIBUTION;
        break;
    case INTCLR:
        *moved = b->latch & value;
        bridge_clear(b, value);
        break;
    case INTISR_CHIP0:
    case INTISR_CHIP1:
    case INTIRR:
        return NO_RIGHT;
    default:
        if (source > 63)
            return NO_SOURCE;
        if (value > 255)
            return BAD_VALUE;
        *moved = b->routes[source] ^ (value & 3);
        b->routes[source] = value & 3;
        break;
    }
    return ACCEPTED;
}

static enum refusal input_change(struct bridge *b, uint64_t source, bool level)
{
    uint64_t bit;

    if (source > 63)
        return NO_SOURCE;
    bit = 1ull << source;
    bridge_drive(b, level ? b->level | bit : b->level & ~bit, b->soft);
    return ACCEPTED;
}

// A step.

static enum refusal act(struct device *d, const struct step *s, uint64_t *value, uint64_t *moved)
{
    switch (s->kind) {
    case BUS_READ:
        return bus_read(d, s, value);
    case BUS_WRITE:
        return bus_write(d, s, moved);
    case PRIVATE_READ:
        return private_read(d, s, value);
    case PRIVATE_WRITE:
        return private_write(d, s, moved);
    case BRIDGE_READ:
        return bridge_read(&d->bridge, s->unit, s->place, value);
    case BRIDGE_WRITE:
        return bridge_write(&d->bridge, s->unit, s->place, s->value, moved);
    case INPUT:
        return input_change(&d->bridge, s->place, s->value);
    case NODE_INPUT:
        return node_input(&d->node, s->place, s->value);
    case WHICH:
        return bridge_which(&d->bridge, s->place, value);
    case WINDOW_SWITCH:
        d->second_open = s->value;
        return ACCEPTED;
    default:
        device_reset(d);
        return ACCEPTED;
    }
}

// In edge mode a source of the node whose drive rises is latched. A write of the modes moves no drive, so those from before the step serve,
// and they say whether the lines before it are needed.
static void device_step(struct device *d, const struct step *s, struct answer *a)
{
    uint32_t edge = d->node.edge;
    uint32_t before = node_drive(&d->node, edge & 3 ? device_lines(d) : 0);
    unsigned lines;

    a->value = 0;
    a->moved = 0;
    a->refusal = act(d, s, &a->value, &a->moved);
    lines = device_lines(d);
    d->node.latch |= node_drive(&d->node, lines) & ~before & edge;
    a->ipi[0] = (d->core[0].status & d->core[0].enable) != 0;
    a->ipi[1] = (d->core[1].status & d->core[1].enable) != 0;
    a->bridge[0] = lines & 1;
    a->bridge[1] = lines >> 1;
    a->pins = node_pins(&d->node, lines);
}

// The mixes (mix.h says what a row is), and the checksum of a run.

static uint64_t drawn(uint64_t x)
{
    x ^= x << 13;
    x ^= x >> 7;
    x ^= x << 17;
    return x;
}

static struct step step_of(const uint64_t row[7], uint64_t x)
{
    struct step s = {
        .kind = row[0],
        .unit = row[1],
        .place = row[2] | (x >> 32 & row[3]),
        .width = row[4],
        .value = ((x ^ x << 32) & row[5]) | row[6],
    };

    if (s.kind == RESET && s.value != 0)
        s.kind = WINDOW_SWITCH;
    return s;
}

// The checksum with an answer: the value or the refusal number, the twelve lines, and the bits that moved.
static uint64_t answer_folded(uint64_t sum, const struct answer *a)
{
    uint64_t lines = a->ipi[0] | a->ipi[1] << 1 | a->bridge[0] << 2 | a->bridge[1] << 3 | (unsigned)a->pins << 4;

    return (sum << 7 | sum >> 57) ^ a->value ^ (uint64_t)a->refusal << 56 ^ lines << 52 ^ (a->moved << 29 | a->moved >> 35);
}

// The checksum with a word of the end state.
static uint64_t folded(uint64_t sum, uint64_t word)
{
    return drawn(sum ^ word);
}

static uint64_t state_folded(uint64_t sum, const struct device *d)
{
    const struct bridge *b = &d->bridge;
    const struct node *n = &d->node;

    for (int c = 0; c < 2; c++) {
        sum = folded(sum, d->core[c].status);
        sum = folded(sum, d->core[c].enable);
        for (int i = 0; i < 4; i++)
            sum = folded(sum, d->core[c].mail[i]);
    }
    sum = folded(sum, b->mask);
    sum = folded(sum, b->msi);
    sum = folded(sum, b->edge);
    sum = folded(sum, b->latch);
    sum = folded(sum, b->soft);
    sum = folded(sum, b->level);
    sum = folded(sum, b->turn_mode);
    sum = folded(sum, b->turn);
    for (int i = 0; i < 64; i++)
        sum = folded(sum, b->routes[i]);
    sum = folded(sum, n->enable);
    sum = folded(sum, n->edge);
    sum = folded(sum, n->latch);
    sum = folded(sum, n->level);
    for (int i = 0; i < 64; i++)
        sum = folded(folded(sum, n->routes[i % 32]), i);
    return folded(sum, d->gate | d->second_open << 1);
}

#ifdef COUNTS
// What a mix does to the device, for gcc -DCOUNTS: totals over the steps of a run.
static uint64_t refused[10], lines[12], opened, pending, visited, alternating, turned, enabled, requested;

static void count(const struct device *d, const struct answer *a)
{
    static uint64_t turn;
    const struct bridge *b = &d->bridge;
    unsigned outputs = 0;

    refused[a->refusal]++;
    for (int k = 0; k < 2; k++) {
        lines[k] += a->ipi[k];
        lines[2 + k] += a->bridge[k];
    }
    for (int j = 0; j < 8; j++)
        lines[4 + j] += a->pins >> j & 1;
    enabled += __builtin_popcount(d->node.enable);
    requested += __builtin_popcount(node_requests(&d->node, device_lines(d)) & d->node.enable);
    opened += d->gate;
    pending += __builtin_popcountll(bridge_pending(b));
    for (uint64_t p = d->gate ? bridge_pending(b) & ~b->turn_mode : 0; p != 0 && outputs != 3; p &= p - 1, visited++)
        outputs |= b->routes[__builtin_ctzll(p)];
    for (uint64_t p = d->gate ? bridge_pending(b) & b->turn_mode : 0; p != 0 && outputs != 3; p &= p - 1, visited++)
        outputs |= bridge_shown(b, __builtin_ctzll(p));
    for (uint64_t p = bridge_pending(b) & b->turn_mode; p != 0; p &= p - 1)
        alternating += b->routes[__builtin_ctzll(p)] == 3;
    turned += __builtin_popcountll(b->turn ^ turn);
    turn = b->turn;
}

static void counts_print(double n)
{
    printf("  refused %.4f:", 1 - refused[0] / n);
    for (int i = 1; i < 10; i++)
        printf(" %d %.4f", i, refused[i] / n);
    printf("\n  lines high %.3f %.3f %.3f %.3f, gate open %.3f, sources pending %.2f, routes looked at %.2f\n", lines[0] / n,
           lines[1] / n, lines[2] / n, lines[3] / n, opened / n, pending / n, visited / n);
    printf("  sources pending that alternate %.2f, turn bits that move %.4f\n", alternating / n, turned / n);
    printf("  pins high");
    for (int j = 0; j < 8; j++)
        printf(" %.3f", lines[4 + j] / n);
    printf(", node sources enabled %.2f, of which request %.2f\n", enabled / n, requested / n);
    memset(refused, 0, sizeof refused);
    memset(lines, 0, sizeof lines);
    opened = pending = visited = alternating = turned = enabled = requested = 0;
}
#endif

static uint64_t run(const uint64_t rows[64][7], uint64_t n)
{
    struct device d = { 0 };
    struct answer a;
    uint64_t x = SEED;
    uint64_t sum = 0;

    device_reset(&d);
    for (uint64_t i = 0; i < n; i++) {
        x = drawn(x);
        struct step s = step_of(rows[x >> 58], x);
        device_step(&d, &s, &a);
        sum = answer_folded(sum, &a);
#ifdef COUNTS
        count(&d, &a);
#endif
    }
    return state_folded(sum, &d);
}

// Whether the first step of a mix opens the second window, as mix.rt says.
static bool opens_first(const uint64_t rows[64][7])
{
    uint64_t x = drawn(SEED);
    struct step s = step_of(rows[x >> 58], x);

    return s.kind == WINDOW_SWITCH && s.value != 0;
}

int main(int argc, char **argv)
{
    static const struct { const char *name; const uint64_t (*rows)[7]; } mixes[4] = {
        { "messages", MESSAGES }, { "sparse", SPARSE }, { "dense", DENSE }, { "tree", TREE },
    };
    uint64_t n = argc > 1 ? strtoull(argv[1], NULL, 10) : 0;

    for (int i = 0; i < 4; i++) {
        if (argc > 2 && strcmp(argv[2], mixes[i].name) != 0)
            continue;
        if (!opens_first(mixes[i].rows)) {
            fprintf(stderr, "%s: the first step does not open the second window\n", mixes[i].name);
            return 1;
        }
        printf("%s %llu checksum 0x%016llx\n", mixes[i].name, (unsigned long long)n, (unsigned long long)run(mixes[i].rows, n));
#ifdef COUNTS
        counts_print(n);
#endif
    }
    return 0;
}
