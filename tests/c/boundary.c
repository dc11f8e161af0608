/* The library over include/voussglen.h. Every answer is held to a value worked out by hand from document 01. */
#include <stdio.h>
#include <stdlib.h>
#include <string.h>

#include "voussglen.h"

static unsigned checks, failed;

/* The lent bus, the lent buffer, and what the buffer holds before each access. */
static vg_bus bus;
static vg_snapshot body;
static vg_snapshot marked;

static const vg_bus empty_bus;
static const vg_effect_told no_effect;

static void check(int line, const char *what, bool holds)
{
    checks++;
    if (!holds) {
        failed++;
        printf("line %d: %s\n", line, what);
    }
}

#define CHECK(holds) check(__LINE__, #holds, (holds))

/* Field by field: padding has no meaning. */
static bool same_bar(const vg_bar_state *a, const vg_bar_state *b)
{
    return a->plan.slot == b->plan.slot && a->plan.size == b->plan.size && a->plan.address == b->plan.address &&
           a->address == b->address && a->probing == b->probing;
}

static bool same_effect(const vg_placed_effect *a, const vg_placed_effect *b)
{
    return a->id == b->id && a->capability == b->capability && a->offset == b->offset && a->length == b->length &&
           a->access == b->access;
}

static bool same_placed(const vg_placed *a, const vg_placed *b)
{
    for (size_t i = 0; i < VG_CAPABILITIES; i++) {
        const vg_placed_capability *x = &a->capabilities[i], *y = &b->capabilities[i];
        if (x->id != y->id || x->offset != y->offset || x->length != y->length)
            return false;
    }
    for (size_t i = 0; i < VG_EFFECTS; i++) {
        if (!same_effect(&a->effects[i], &b->effects[i]))
            return false;
    }
    return a->count == b->count && a->effect_count == b->effect_count;
}

static bool same_function(const vg_function_state *a, const vg_function_state *b)
{
    for (size_t slot = 0; slot < VG_SLOTS; slot++) {
        if (!same_bar(&a->bars[slot], &b->bars[slot]))
            return false;
    }
    return memcmp(a->live, b->live, VG_CONFIG_SPACE) == 0 && memcmp(a->power_on, b->power_on, VG_CONFIG_SPACE) == 0 &&
           memcmp(a->mask, b->mask, VG_CONFIG_SPACE) == 0 && same_placed(&a->placed, &b->placed) &&
           a->revision == b->revision;
}

static bool same_bus(const vg_bus *a, const vg_bus *b)
{
    for (size_t k = 0; k < VG_FUNCTIONS; k++) {
        if (a->devices[k] != b->devices[k] || !same_function(&a->functions[k], &b->functions[k]))
            return false;
    }
    return a->aperture.start == b->aperture.start && a->aperture.end == b->aperture.end && a->count == b->count;
}

static bool same_told(const vg_effect_told *a, const vg_effect_told *b)
{
    return a->capability_id == b->capability_id && same_effect(&a->region, &b->region) && a->offset == b->offset &&
           a->region_offset == b->region_offset;
}

static bool body_kept(void)
{
    return memcmp(&body, &marked, sizeof body) == 0;
}

static bool body_is(const uint8_t *bytes, size_t length)
{
    for (size_t i = 0; i < VG_LONGEST_BODY; i++) {
        if (body.bytes[i] != (i < length ? bytes[i] : 0))
            return false;
    }
    return body.length == length;
}

/* Accesses, with the buffer marked before each. */
static vg_read_result read_at(size_t device, size_t offset, size_t width)
{
    body = marked;
    return vg_read(&bus, &body, (vg_read_ask){ .device = device, .offset = offset, .width = width });
}

static vg_write_result write_at(size_t device, size_t offset, size_t width, uint64_t value)
{
    body = marked;
    return vg_write(&bus, &body,
                    (vg_write_ask){ .device = device, .offset = offset, .width = width, .value = value });
}

static vg_lookup_result look(uint64_t address, size_t width)
{
    return vg_lookup(&bus, (vg_lookup_ask){ .address = address, .width = width });
}

/* A read gives a value and leaves the buffer. */
static bool reads(size_t device, size_t offset, size_t width, uint64_t value)
{
    vg_read_result r = read_at(device, offset, width);
    return r.kind == VG_KIND_VALUE && r.refusal == VG_ACCEPTED && r.value == value &&
           same_told(&r.effect, &no_effect) && body_kept();
}

static bool read_refused(size_t device, size_t offset, size_t width, uint8_t refusal)
{
    vg_read_result r = read_at(device, offset, width);
    return r.kind == VG_KIND_REFUSED && r.refusal == refusal && r.value == 0 && same_told(&r.effect, &no_effect) &&
           body_kept();
}

/* A write is answered by a kind, a slot and an address, and leaves the buffer. */
static bool writes(size_t device, size_t offset, size_t width, uint64_t value, uint8_t kind, size_t slot,
                   uint64_t address)
{
    vg_write_result r = write_at(device, offset, width, value);
    return r.kind == kind && r.refusal == VG_ACCEPTED && r.device == 0 && r.slot == slot && r.address == address &&
           same_told(&r.effect, &no_effect) && body_kept();
}

/* "18, 19, and 20 on a write, change nothing." */
static bool write_refused(size_t device, size_t offset, size_t width, uint64_t value, uint8_t refusal, uint8_t told)
{
    const vg_bus before = bus;
    vg_write_result r = write_at(device, offset, width, value);
    return r.kind == VG_KIND_REFUSED && r.refusal == refusal && r.device == told && r.slot == 0 && r.address == 0 &&
           same_told(&r.effect, &no_effect) && body_kept() && same_bus(&bus, &before);
}

static bool hits(uint64_t address, size_t width, uint8_t device, size_t slot, uint64_t offset)
{
    vg_lookup_result r = look(address, width);
    return r.kind == VG_KIND_HIT && r.refusal == VG_ACCEPTED && r.device == device && r.slot == slot &&
           r.offset == offset;
}

static bool answers_nothing(vg_lookup_result r, uint8_t kind, uint8_t refusal)
{
    return r.kind == kind && r.refusal == refusal && r.device == 0 && r.slot == 0 && r.offset == 0;
}

static bool misses(uint64_t address, size_t width)
{
    return answers_nothing(look(address, width), VG_KIND_MISS, VG_ACCEPTED);
}

static bool lookup_refused(uint64_t address, size_t width)
{
    return answers_nothing(look(address, width), VG_KIND_REFUSED, VG_BAD_ACCESS);
}

static bool resets(uint8_t refusal, uint8_t device)
{
    vg_reset_result r = vg_reset(&bus);
    return r.refusal == refusal && r.device == device;
}

static bool accepted(const uint8_t *file, size_t length)
{
    vg_start_result r = vg_start(&bus, file, length);
    return r.refusal == VG_ACCEPTED && !r.in_file && r.device == 0 && r.offset == 0 && r.index == 0;
}

/* A refused file leaves "a bus with no functions and no aperture". */
static bool refused_at(const uint8_t *file, size_t length, uint8_t refusal, size_t offset)
{
    vg_start_result r = vg_start(&bus, file, length);
    return r.refusal == refusal && r.in_file && r.device == 0 && r.offset == offset && r.index == 0 &&
           same_bus(&bus, &empty_bus);
}

static bool refused_on(const uint8_t *file, size_t length, uint8_t refusal, uint8_t device, size_t index)
{
    vg_start_result r = vg_start(&bus, file, length);
    return r.refusal == refusal && !r.in_file && r.device == device && r.offset == 0 && r.index == index &&
           same_bus(&bus, &empty_bus);
}

/* The Run case: the places, and the header. */
static void run_case(const uint8_t *file, size_t length)
{
    CHECK(length == 114);
    CHECK(accepted(file, length));
    CHECK(bus.aperture.start == 0x80000000 && bus.aperture.end == 0x80010000);
    CHECK(bus.count == 2 && bus.devices[0] == 3 && bus.devices[1] == 5);
    CHECK(reads(3, 0x10, 4, 0x80001000));
    CHECK(reads(3, 0x14, 4, 0x80000000));
    CHECK(reads(5, 0x10, 4, 0x80004000));
    CHECK(bus.functions[0].bars[0].plan.size == 0x1000);
    CHECK(bus.functions[0].bars[1].plan.size == 0x1000);
    CHECK(bus.functions[1].bars[0].plan.size == 0x4000);
    CHECK(bus.functions[0].revision == 0 && bus.functions[1].revision == 0);

    CHECK(reads(3, 0x00, 4, 0x10031af4));
    CHECK(reads(3, 0x00, 2, 0x1af4));
    CHECK(reads(3, 0x02, 2, 0x1003));
    CHECK(reads(3, 0x01, 1, 0x1a));
    CHECK(reads(3, 0x04, 4, 0));
    CHECK(reads(3, 0x08, 4, 0x02000001));
    CHECK(reads(3, 0x0e, 1, 0));
    CHECK(reads(3, 0x18, 4, 0));
    CHECK(reads(3, 0x2c, 4, 0x00031af4));
    CHECK(reads(3, 0x34, 1, 0));
    CHECK(reads(3, 0x3c, 4, 0));
    CHECK(reads(3, 0xfc, 4, 0));
    CHECK(reads(5, 0x00, 4, 0x10051af4));
    CHECK(reads(5, 0x2c, 4, 0x00051af4));

    /* "An undeclared device, or a number above 31, reads all ones of the width; writes are dropped." */
    CHECK(reads(4, 0x00, 1, 0xff));
    CHECK(reads(4, 0x00, 2, 0xffff));
    CHECK(reads(4, 0x00, 4, 0xffffffff));
    CHECK(reads(0, 0x10, 4, 0xffffffff));
    CHECK(reads(32, 0x00, 4, 0xffffffff));
    CHECK(reads(259, 0x00, 4, 0xffffffff));
    CHECK(reads(SIZE_MAX, 0x00, 4, 0xffffffff));
    const vg_bus before = bus;
    CHECK(writes(4, 0x04, 2, 0xffff, VG_KIND_DROPPED, 0, 0));
    CHECK(writes(SIZE_MAX, 0x10, 4, 0xffffffff, VG_KIND_DROPPED, 0, 0));
    CHECK(same_bus(&bus, &before));
}

/* P10: what an access may be. Refusal 18 comes before the device. */
static void bad_accesses(void)
{
    CHECK(read_refused(3, 0x100, 4, VG_BAD_ACCESS));
    CHECK(read_refused(3, 0x100, 1, VG_BAD_ACCESS));
    CHECK(read_refused(3, SIZE_MAX, 1, VG_BAD_ACCESS));
    CHECK(read_refused(3, 0x00, 8, VG_BAD_ACCESS));
    CHECK(read_refused(3, 0x00, 3, VG_BAD_ACCESS));
    CHECK(read_refused(3, 0x00, 0, VG_BAD_ACCESS));
    CHECK(read_refused(3, 0x01, 2, VG_BAD_ACCESS));
    CHECK(read_refused(3, 0x02, 4, VG_BAD_ACCESS));
    CHECK(read_refused(9, 0x01, 2, VG_BAD_ACCESS));
    CHECK(write_refused(3, 0x100, 4, 0xffffffff, VG_BAD_ACCESS, 0));
    CHECK(write_refused(3, 0x10, 8, 0xffffffff, VG_BAD_ACCESS, 0));
    CHECK(write_refused(3, 0x11, 2, 0xffff, VG_BAD_ACCESS, 0));
    CHECK(write_refused(9, 0x00, 0, 0, VG_BAD_ACCESS, 0));
    CHECK(lookup_refused(0x80000000, 0));
    CHECK(lookup_refused(0x80000000, 3));
    CHECK(lookup_refused(0x80000000, 16));
    CHECK(lookup_refused(0, SIZE_MAX));
}

/* The command register and its revision, and what memory lookup makes of bit 1. */
static void command_and_lookup(void)
{
    CHECK(misses(0x80001000, 4));
    CHECK(writes(3, 0x04, 2, 0xffff, VG_KIND_STORED, 0, 0));
    CHECK(reads(3, 0x04, 2, 0x0406)); /* P5 */
    CHECK(bus.functions[0].revision == 1 && bus.functions[1].revision == 0);
    CHECK(writes(3, 0x04, 2, 0xffff, VG_KIND_STORED, 0, 0));
    CHECK(bus.functions[0].revision == 1);
    CHECK(writes(3, 0x04, 1, 0xabcd02, VG_KIND_STORED, 0, 0)); /* "beyond the width are ignored" */
    CHECK(reads(3, 0x04, 2, 0x0402));
    CHECK(bus.functions[0].revision == 2);
    CHECK(writes(3, 0x00, 4, 0, VG_KIND_STORED, 0, 0));
    CHECK(reads(3, 0x00, 4, 0x10031af4));
    CHECK(writes(3, 0x18, 4, 0xffffffff, VG_KIND_STORED, 0, 0));
    CHECK(reads(3, 0x18, 4, 0));
    CHECK(bus.functions[0].revision == 2);

    CHECK(hits(0x80001000, 4, 3, 0, 0));
    CHECK(hits(0x80001ffc, 4, 3, 0, 0xffc));
    CHECK(hits(0x80000ff8, 8, 3, 1, 0xff8));
    CHECK(hits(0x80001fff, 1, 3, 0, 0xfff));
    CHECK(hits(0x80001235, 2, 3, 0, 0x235));
    CHECK(misses(0x80001fff, 2));
    CHECK(misses(0x80000ffc, 8)); /* in two BARs, whole in none */
    CHECK(misses(0x80002000, 1));
    CHECK(misses(0x7fffffff, 1));
    CHECK(misses(0x80004000, 4)); /* device 5 does not decode */
    CHECK(misses(0, 1));
    CHECK(misses(UINT64_MAX, 8));
    CHECK(misses(0x180001000, 4));
}

/* Probes and relocations of device 3's slot 0, of size 0x1000. */
static void probe_and_relocate(void)
{
    CHECK(writes(3, 0x10, 4, 0xffffffff, VG_KIND_PROBING, 0, 0));
    CHECK(reads(3, 0x10, 4, 0xfffff000));
    CHECK(reads(3, 0x11, 1, 0xf0));
    CHECK(hits(0x80001000, 4, 3, 0, 0)); /* the committed address stays */
    CHECK(writes(3, 0x10, 4, 0x80001000, VG_KIND_MOVED, 0, 0x80001000));
    CHECK(reads(3, 0x10, 4, 0x80001000));

    CHECK(writes(3, 0x10, 4, 0x80002000, VG_KIND_MOVED, 0, 0x80002000));
    CHECK(hits(0x80002004, 4, 3, 0, 4));
    CHECK(misses(0x80001004, 4));
    CHECK(writes(3, 0x10, 4, 0x8000300f, VG_KIND_MOVED, 0, 0x80003000)); /* low four bits cleared */
    CHECK(reads(3, 0x10, 4, 0x80003000));

    CHECK(writes(3, 0x10, 4, 0x80000000, VG_KIND_KEPT, 0, 0x80003000)); /* slot 1 lies there */
    CHECK(writes(3, 0x10, 4, 0x80007000, VG_KIND_KEPT, 0, 0x80003000)); /* device 5 does, though not decoding */
    CHECK(writes(3, 0x10, 4, 0x80008800, VG_KIND_KEPT, 0, 0x80003000)); /* no multiple of the size */
    CHECK(writes(3, 0x10, 4, 0x80010000, VG_KIND_KEPT, 0, 0x80003000)); /* past the aperture */
    CHECK(writes(3, 0x10, 4, 0xfffffff0, VG_KIND_KEPT, 0, 0x80003000)); /* P2: no probe */
    CHECK(reads(3, 0x10, 4, 0x80003000));

    CHECK(writes(3, 0x10, 4, 0xffffffff, VG_KIND_PROBING, 0, 0));
    CHECK(writes(3, 0x10, 4, 0, VG_KIND_KEPT, 0, 0x80003000)); /* not accepted, but probing ends */
    CHECK(reads(3, 0x10, 4, 0x80003000));

    CHECK(writes(3, 0x11, 1, 0x90, VG_KIND_MOVED, 0, 0x80009000)); /* a byte merges into the committed dword */
    CHECK(writes(3, 0x10, 4, 0xffffffff, VG_KIND_PROBING, 0, 0));
    CHECK(writes(3, 0x10, 2, 0xa000, VG_KIND_MOVED, 0, 0x8000a000)); /* also while probing */
    CHECK(writes(3, 0x14, 4, 0x80001000, VG_KIND_MOVED, 1, 0x80001000));
    CHECK(writes(5, 0x10, 4, 0x8000c000, VG_KIND_MOVED, 0, 0x8000c000));
    CHECK(misses(0x8000c000, 4));
    CHECK(writes(5, 0x04, 2, 2, VG_KIND_STORED, 0, 0));
    CHECK(hits(0x8000fffc, 4, 5, 0, 0x3ffc));
    CHECK(bus.functions[0].revision == 2 && bus.functions[1].revision == 1); /* no relocation counts */
}

static bool restored(void)
{
    return reads(3, 0x10, 4, 0x80001000) && reads(3, 0x14, 4, 0x80000000) && reads(5, 0x10, 4, 0x80004000) &&
           reads(3, 0x04, 2, 0) && reads(5, 0x04, 2, 0) && misses(0x80001000, 4) && misses(0x80004000, 4);
}

/* "Reset restores every function's live image and BARs, ends probing, then adds 1 to each revision." */
static void reset_and_exhaust(void)
{
    CHECK(writes(5, 0x10, 4, 0xffffffff, VG_KIND_PROBING, 0, 0));
    CHECK(resets(VG_ACCEPTED, 0));
    CHECK(restored());
    CHECK(bus.functions[0].revision == 3 && bus.functions[1].revision == 2);

    /* No test can count so far: the revision is put there. */
    bus.functions[1].revision = UINT64_MAX;
    CHECK(write_refused(5, 0x04, 2, 2, VG_REVISION_EXHAUSTED, 5));
    CHECK(writes(5, 0x04, 2, 0x0001, VG_KIND_STORED, 0, 0)); /* changes no bit that counts */
    CHECK(writes(5, 0x10, 4, 0x80008000, VG_KIND_MOVED, 0, 0x80008000));
    CHECK(writes(3, 0x04, 2, 2, VG_KIND_STORED, 0, 0));
    CHECK(resets(VG_REVISION_EXHAUSTED, 5));
    CHECK(restored());
    CHECK(bus.functions[0].revision == 5 && bus.functions[1].revision == UINT64_MAX);
    bus.functions[0].revision = UINT64_MAX;
    CHECK(resets(VG_REVISION_EXHAUSTED, 3)); /* the lowest such device */
}

static bool slot_is(vg_slot_report slot, uint64_t size, uint64_t address)
{
    return slot.size == size && slot.address == address;
}

static bool identity_is(vg_identity it, uint16_t vendor, uint16_t device, uint16_t subsystem_vendor,
                        uint16_t subsystem, uint8_t revision, uint32_t class_bytes)
{
    return it.vendor == vendor && it.device == device && it.subsystem_vendor == subsystem_vendor &&
           it.subsystem == subsystem && it.revision == revision && it.base_class == class_bytes >> 16 &&
           it.subclass == (class_bytes >> 8 & 0xff) && it.programming_interface == (class_bytes & 0xff);
}

static bool no_slots(const vg_report *r, size_t from)
{
    for (size_t slot = from; slot < VG_SLOTS; slot++) {
        if (!slot_is(r->slots[slot], 0, 0))
            return false;
    }
    return true;
}

static bool no_list(const vg_report *r, size_t from)
{
    for (size_t i = from; i < VG_CAPABILITIES; i++) {
        if (r->list[i].offset != 0 || r->list[i].id != 0)
            return false;
    }
    return r->list_count == from;
}

static bool absent(size_t device)
{
    vg_report r = vg_enumerate(&bus, device);
    return !r.present && identity_is(r.identity, 0, 0, 0, 0, 0, 0) && r.pin == 0 && no_slots(&r, 0) && no_list(&r, 0);
}

static void enumerates(void)
{
    CHECK(writes(5, 0x10, 4, 0x80008000, VG_KIND_MOVED, 0, 0x80008000));
    const vg_bus before = bus;
    vg_report r = vg_enumerate(&bus, 3);
    CHECK(r.present && identity_is(r.identity, 0x1af4, 0x1003, 0x1af4, 0x0003, 1, 0x020000) && r.pin == 0);
    CHECK(slot_is(r.slots[0], 0x1000, 0x80001000) && slot_is(r.slots[1], 0x1000, 0x80000000));
    CHECK(no_slots(&r, 2) && no_list(&r, 0));
    r = vg_enumerate(&bus, 5);
    CHECK(r.present && identity_is(r.identity, 0x1af4, 0x1005, 0x1af4, 0x0005, 1, 0x020000) && r.pin == 0);
    CHECK(slot_is(r.slots[0], 0x4000, 0x80008000) && no_slots(&r, 1) && no_list(&r, 0));
    CHECK(absent(4));
    CHECK(absent(32));
    CHECK(absent(SIZE_MAX));
    CHECK(same_bus(&bus, &before));
}

/* The aperture 0xffff0000 to 4 GiB; device 2 with an automatic BAR of 0x1000 in slot 5. */
static const uint8_t at_the_end[] = {
    1, 16, 0, 0, 0, 0xff, 0xff, 0, 0, 0, 0, 0, 0, 0, 0, 1, 0, 0, 0,
    2, 13, 0, 2, 0xf4, 0x1a, 1, 0, 0xf4, 0x1a, 1, 0, 0, 2, 0, 0,
    4, 18, 0, 5, 0, 0, 0x10, 0, 0, 0, 0, 0, 0, 0, 0, 0, 0, 0, 0, 0, 0,
};

/* Begun while a BAR shows its size, an enumeration takes the mask for the address, and here moves the BAR there. */
static void enumerates_while_probing(void)
{
    CHECK(accepted(at_the_end, sizeof at_the_end));
    vg_report r = vg_enumerate(&bus, 2);
    CHECK(r.present && no_list(&r, 0) && slot_is(r.slots[5], 0x1000, 0xffff0000) && slot_is(r.slots[0], 0, 0));
    CHECK(writes(2, 0x24, 4, 0xffffffff, VG_KIND_PROBING, 5, 0));
    r = vg_enumerate(&bus, 2);
    CHECK(slot_is(r.slots[5], 0x1000, 0xfffff000));
    CHECK(bus.functions[0].bars[5].address == 0xfffff000 && !bus.functions[0].bars[5].probing);
}

/* All 4 GiB as one BAR: its mask is 0, so it counts as an empty slot, and it stays where it is. */
static void four_gib(void)
{
    static const uint8_t file[] = {
        1, 16, 0, 0, 0, 0, 0, 0, 0, 0, 0, 0, 0, 0, 0, 1, 0, 0, 0,
        2, 13, 0, 2, 0xf4, 0x1a, 1, 0, 0xf4, 0x1a, 1, 0, 0, 2, 0, 0,
        4, 18, 0, 0, 0, 0, 0, 0, 0, 1, 0, 0, 0, 0, 0, 0, 0, 0, 0, 0, 0,
    };
    CHECK(accepted(file, sizeof file));
    CHECK(writes(2, 0x04, 2, 2, VG_KIND_STORED, 0, 0));
    CHECK(hits(0xfffffff8, 8, 2, 0, 0xfffffff8));
    CHECK(misses(0xfffffffc, 8));
    const vg_bus before = bus;
    vg_report r = vg_enumerate(&bus, 2);
    CHECK(r.present && no_slots(&r, 0));
    CHECK(same_bus(&bus, &before));
}

/* An aperture; device 1 with pin 2 and line 9, a capability with two effects at 0x40, one with no body at 0x48. */
static const uint8_t with_effects[] = {
    1, 16, 0, 0, 0, 0, 0x80, 0, 0, 0, 0, 0, 0, 1, 0x80, 0, 0, 0, 0,
    2, 13, 0, 1, 0x34, 0x12, 0x78, 0x56, 0xbc, 0x9a, 0xf0, 0xde, 7, 0x0c, 0x03, 0x30,
    3, 2, 0, 2, 9,
    5, 3, 0, 0x80, 0xc3, 0x0f,
    6, 11, 0, 0x09, 0xa0, 0xa1, 0xa2, 0xa3, 0xa4, 0xff, 0, 0, 0, 0,
    7, 5, 0, 0x01, 0x02, 3, 2, VG_ACCESS_READ,
    7, 5, 0, 0x03, 0x04, 5, 2, VG_ACCESS_WRITE,
    6, 1, 0, 0x05,
};

static bool effect_is(const vg_effect_told *effect, uint16_t id, uint8_t start, uint8_t length, uint8_t access,
                      uint16_t offset, uint16_t region_offset)
{
    const vg_effect_told told = {
        .capability_id = 0x09,
        .region = { .id = id, .capability = 0, .offset = start, .length = length, .access = access },
        .offset = offset,
        .region_offset = region_offset,
    };
    return same_told(effect, &told);
}

static bool read_touches(size_t offset, uint16_t from_start, uint16_t from_region, const uint8_t *bytes)
{
    const vg_bus before = bus;
    vg_read_result r = read_at(1, offset, 1);
    return r.kind == VG_KIND_EFFECT && r.refusal == VG_ACCEPTED && r.value == 0 &&
           effect_is(&r.effect, 0x0201, 3, 2, VG_ACCESS_READ, from_start, from_region) && body_is(bytes, 5) &&
           same_bus(&bus, &before);
}

static bool write_touches(size_t offset, uint16_t from_start, uint16_t from_region, const uint8_t *bytes)
{
    const vg_bus before = bus;
    vg_write_result r = write_at(1, offset, 1, 0x77);
    return r.kind == VG_KIND_EFFECT && r.refusal == VG_ACCEPTED && r.device == 0 && r.slot == 0 && r.address == 0 &&
           effect_is(&r.effect, 0x0403, 5, 2, VG_ACCESS_WRITE, from_start, from_region) && body_is(bytes, 5) &&
           same_bus(&bus, &before);
}

static void effects(void)
{
    CHECK(accepted(with_effects, sizeof with_effects));
    CHECK(reads(1, 0x04, 4, 0x00100000));
    CHECK(reads(1, 0x08, 4, 0x0c033007));
    CHECK(reads(1, 0x34, 1, 0x40));
    CHECK(reads(1, 0x3c, 2, 0x0209));
    CHECK(reads(1, 0x40, 2, 0x4809));
    CHECK(reads(1, 0x48, 4, 0x00000005));
    CHECK(reads(1, 0x80, 1, 0xc3));
    CHECK(writes(1, 0x80, 1, 0xff, VG_KIND_STORED, 0, 0));
    CHECK(reads(1, 0x80, 1, 0xcf));

    static const uint8_t declared[] = { 0xa0, 0xa1, 0xa2, 0xa3, 0xa4 };
    static const uint8_t written[] = { 0x5c, 0xa1, 0xa2, 0xa3, 0xa4 };
    CHECK(read_touches(0x43, 3, 0, declared));
    CHECK(read_touches(0x44, 4, 1, declared));
    CHECK(read_refused(1, 0x42, 2, VG_BAD_TOUCH));
    CHECK(read_refused(1, 0x44, 4, VG_BAD_TOUCH));
    CHECK(read_refused(1, 0x45, 1, VG_BAD_TOUCH)); /* only writes are allowed there */
    CHECK(write_refused(1, 0x43, 1, 0, VG_BAD_TOUCH, 0)); /* only reads */
    CHECK(write_refused(1, 0x40, 4, 0, VG_BAD_TOUCH, 0));
    CHECK(write_touches(0x45, 5, 0, declared));
    CHECK(write_touches(0x46, 6, 1, declared));
    CHECK(reads(1, 0x42, 1, 0xa0));
    CHECK(writes(1, 0x42, 1, 0x5c, VG_KIND_STORED, 0, 0));
    CHECK(reads(1, 0x42, 1, 0x5c));
    CHECK(read_touches(0x43, 3, 0, written)); /* the live body */
    CHECK(bus.functions[0].revision == 0);

    const vg_bus before = bus;
    vg_report r = vg_enumerate(&bus, 1);
    CHECK(r.present && identity_is(r.identity, 0x1234, 0x5678, 0x9abc, 0xdef0, 7, 0x0c0330) && r.pin == 2);
    CHECK(r.list[0].offset == 0x40 && r.list[0].id == 0x09 && r.list[1].offset == 0x48 && r.list[1].id == 0x05);
    CHECK(no_slots(&r, 0) && no_list(&r, 2));
    CHECK(same_bus(&bus, &before));

    CHECK(resets(VG_ACCEPTED, 0));
    CHECK(read_touches(0x43, 3, 0, declared));
    CHECK(bus.functions[0].revision == 1);
}

/* The empty bus, whether by refusal or by zero bytes. */
static void empty(void)
{
    CHECK(bus.count == 0);
    CHECK(reads(3, 0x00, 4, 0xffffffff));
    CHECK(writes(3, 0x10, 4, 0xffffffff, VG_KIND_DROPPED, 0, 0));
    CHECK(misses(0, 1));
    CHECK(resets(VG_ACCEPTED, 0));
    CHECK(absent(3));
    CHECK(same_bus(&bus, &empty_bus));
}

static void refusals(const uint8_t *file, size_t length)
{
    uint8_t bad[114];
    CHECK(length == sizeof bad);
    CHECK(refused_at(file, 0, VG_OUT_OF_ORDER, 0));
    CHECK(refused_at(file, length - 1, VG_FIELD_CUT, 93));
    CHECK(refused_at(file, 20, VG_FIELD_CUT, 19));
    CHECK(refused_at(file + 19, length - 19, VG_OUT_OF_ORDER, 0));

    memcpy(bad, file, length);
    bad[19] = 9; /* no such tag */
    CHECK(refused_at(bad, length, VG_BAD_FORM, 19));

    memcpy(bad, file, length);
    bad[22] = 32;
    CHECK(refused_at(bad, length, VG_BAD_DEVICE_OR_SLOT, 19));

    memcpy(bad, file, length);
    bad[23] = bad[24] = 0xff;
    CHECK(refused_at(bad, length, VG_ABSENT_VENDOR, 19));

    memcpy(bad, file, length);
    bad[41] = 0x11; /* size 0x1100 */
    CHECK(refused_at(bad, length, VG_BAD_SIZE, 35));

    memcpy(bad, file, length);
    bad[13] = 0; /* the aperture from 0x80000000 to 0x80000000 */
    CHECK(refused_at(bad, length, VG_BAD_APERTURE, 0));

    memcpy(bad, file, length);
    bad[39] = 1; /* slot 0 fixed at 0x80000000 too */
    bad[51] = 0x80;
    CHECK(refused_on(bad, length, VG_OVERLAPS_PLACED, 3, 1));

    memcpy(bad, file, length);
    bad[70] = 0x08; /* slot 1 fixed at 0x80000800 */
    CHECK(refused_on(bad, length, VG_NOT_MULTIPLE, 3, 1));

    memcpy(bad, file, length);
    bad[73] = 1; /* slot 1 fixed at 0x180000000 */
    CHECK(refused_on(bad, length, VG_OUTSIDE_APERTURE, 3, 1));

    memcpy(bad, file, length);
    bad[99] = 0; /* device 5's BAR of 64 KiB */
    bad[100] = 1;
    CHECK(refused_on(bad, length, VG_NO_PLACE, 5, 0));
    empty();

    memcpy(bad, with_effects, sizeof with_effects);
    bad[43] = 0x40; /* a config byte in a capability */
    CHECK(refused_on(bad, sizeof with_effects, VG_BAD_CONFIG_BYTE, 1, 0));

    memcpy(bad, with_effects, sizeof with_effects);
    bad[71] = 0x01; /* the second effect has the first one's id */
    bad[72] = 0x02;
    CHECK(refused_on(bad, sizeof with_effects, VG_REPEATED_EFFECT, 1, 0));

    CHECK(accepted(file, 19)); /* "An aperture alone is a valid file." */
    CHECK(bus.aperture.start == 0x80000000 && bus.aperture.end == 0x80010000 && bus.count == 0);
}

int main(int count, char **words)
{
    static uint8_t file[65536];
    FILE *from = count == 2 ? fopen(words[1], "rb") : NULL;
    if (from == NULL) {
        fprintf(stderr, "usage: boundary demo/run.declaration\n");
        return 1;
    }
    size_t length = fread(file, 1, sizeof file, from);
    fclose(from);
    memset(&marked, 0x5a, sizeof marked);

    empty();
    run_case(file, length);
    bad_accesses();
    command_and_lookup();
    probe_and_relocate();
    reset_and_exhaust();
    enumerates();
    enumerates_while_probing();
    four_gib();
    effects();
    refusals(file, length);

    printf("%u checks, %u failed\n", checks, failed);
    return failed == 0 ? EXIT_SUCCESS : 1;
}
