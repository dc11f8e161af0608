/*
 * Voussglen: config space, memory BARs, capabilities and placement of virtual PCI functions. C11, x86-64, System V ABI.
 *
 *     static vg_bus bus;
 *     static vg_snapshot body;
 *     vg_start_result started = vg_start(&bus, file, length);
 *     if (started.refusal == VG_ACCEPTED) {
 *         vg_read_result got = vg_read(&bus, &body, (vg_read_ask){ .device = 3, .offset = 0x10, .width = 4 });
 *         ...
 *     }
 *
 * The caller lends a vg_bus and a vg_snapshot. Nothing is allocated, and nothing is kept between calls.
 * A vg_bus comes from vg_start, or is all zero bytes, which is the empty bus: no aperture and no functions.
 * Its fields may be read between calls; only the functions below change them. A copy of one is a bus of its own.
 * No pointer may be null, also where a length is 0, and what one points to may not overlap what another does.
 * There are no locks. vg_read and vg_lookup only read the bus and may run at once with each other;
 * vg_start, vg_write, vg_reset and vg_enumerate want it for themselves. A vg_snapshot serves one call at a time:
 * every vg_read and vg_write writes it, if only with what it held. Calls on different buses may run at once.
 * Every question has an answer: a bad one is refused by number. A bool is 0 or 1. Padding has no meaning.
 * A call copies the bus on its stack: vg_enumerate was measured at 159 KiB, vg_start at 131 KiB, vg_write at 118 KiB,
 * vg_reset at 44 KiB, the others at 24 KiB. Give the calling thread 256 KiB.
 */
#ifndef VOUSSGLEN_H
#define VOUSSGLEN_H

#include <stdbool.h>
#include <stddef.h>
#include <stdint.h>

/* Limits. */
#define VG_FUNCTIONS 8
#define VG_SLOTS 6
#define VG_CAPABILITIES 16
#define VG_EFFECTS 32
#define VG_CONFIG_SPACE 256
#define VG_LONGEST_BODY 253

/* Refusals, and with each its place: F the field's offset in the file, D the device and an index. */
enum {
    VG_ACCEPTED = 0,            /* nothing is refused */
    VG_FIELD_CUT = 1,           /* F: header or body of a field is cut */
    VG_BAD_FORM = 2,            /* F: unknown tag, wrong length, byte outside its set, automatic address not zero */
    VG_OUT_OF_ORDER = 3,        /* F: field out of order or repeated; or the file ends with no aperture, F its length */
    VG_ABOVE_LIMIT = 4,         /* F: one more than a limit */
    VG_BAD_DEVICE_OR_SLOT = 5,  /* F: device above 31 or declared twice; slot above 5 or used twice */
    VG_ABSENT_VENDOR = 6,       /* F: vendor 0xffff */
    VG_BAD_SIZE = 7,            /* F: size below 16, not a power of two, or above 4 GiB */
    VG_BAD_APERTURE = 8,        /* F: not start < end, or end above 4 GiB */
    VG_BAD_CONFIG_BYTE = 9,     /* D, index: not at 0x0c, 0x0d, 0x3c or in 0x40 to 0xff outside every capability */
    VG_LONG_BODY = 10,          /* F: capability body above 253 bytes */
    VG_BAD_EFFECT = 11,         /* F: empty, before 2, past its capability, over an earlier one or a writable byte */
    VG_REPEATED_EFFECT = 12,    /* D, capability index: effect id repeated in the function */
    VG_PAST_SPACE = 13,         /* D, capability index: a capability would end after 0x100 */
    VG_NOT_MULTIPLE = 14,       /* D, slot: fixed address not a multiple of size */
    VG_OUTSIDE_APERTURE = 15,   /* D, slot: fixed range outside the aperture or past 64 bits */
    VG_OVERLAPS_PLACED = 16,    /* D, slot: fixed range overlaps one placed before */
    VG_NO_PLACE = 17,           /* D, slot: no free place for an automatic BAR */
    VG_BAD_ACCESS = 18,         /* offset past 0xff or no multiple of width, width not 1, 2, 4; lookup: not 1, 2, 4, 8 */
    VG_BAD_TOUCH = 19,          /* an access touches an effect but is not inside it, or its direction is not allowed */
    VG_REVISION_EXHAUSTED = 20, /* device: a revision counter is at its largest */
};

/* What an answer is. */
enum {
    VG_KIND_REFUSED = 0, /* `refusal` says why; nothing changed */
    VG_KIND_VALUE = 1,   /* a read: `value` */
    VG_KIND_STORED = 2,  /* a write: bits were stored where the mask has them */
    VG_KIND_DROPPED = 3, /* a write to a device that is not declared */
    VG_KIND_PROBING = 4, /* a BAR's register became all ones: it shows the size mask now */
    VG_KIND_MOVED = 5,   /* a write to a BAR: it lies at `address` now */
    VG_KIND_KEPT = 6,    /* a write to a BAR, not accepted: it lies at `address` still */
    VG_KIND_EFFECT = 7,  /* a read or a write inside an effect, which the caller carries out; nothing changed */
    VG_KIND_HIT = 8,     /* a lookup: the BAR that holds the whole access */
    VG_KIND_MISS = 9,    /* a lookup: no decoding BAR holds it */
};

/* What an effect answers to. */
enum {
    VG_ACCESS_READ = 1,
    VG_ACCESS_WRITE = 2,
    VG_ACCESS_BOTH = 3,
};

/* The addresses from `start` up to `end`, where BARs may lie. */
typedef struct vg_aperture {
    uint64_t start;
    uint64_t end; /* the first address past it, at most 4 GiB */
} vg_aperture;

/* Where a BAR was placed at the start. */
typedef struct vg_plan {
    uint8_t slot;     /* 0 to 5 */
    uint64_t size;    /* a power of two; 0 is no BAR */
    uint64_t address; /* a reset brings it back here */
} vg_plan;

/* A BAR as it is now. */
typedef struct vg_bar_state {
    vg_plan plan;
    uint64_t address; /* the committed address */
    bool probing;     /* whether the register shows the size mask */
} vg_bar_state;

/* A capability in config space. */
typedef struct vg_placed_capability {
    uint8_t id;      /* the capability id, its first byte */
    uint16_t offset; /* where it starts, a multiple of 4 from 0x40 on */
    uint8_t length;  /* bytes of its body, which follow id and next offset */
} vg_placed_capability;

/* An effect: a region of a capability whose accesses the caller carries out. */
typedef struct vg_placed_effect {
    uint16_t id;        /* as declared; no other effect of the function has it */
    uint8_t capability; /* the index of its capability */
    uint8_t offset;     /* where it starts, from its capability's start */
    uint8_t length;     /* how many bytes it has */
    uint8_t access;     /* VG_ACCESS_READ, _WRITE or _BOTH */
} vg_placed_effect;

/* The capabilities and effects of a function, in the order of the file; zero past each count. */
typedef struct vg_placed {
    vg_placed_capability capabilities[VG_CAPABILITIES];
    size_t count; /* of capabilities */
    vg_placed_effect effects[VG_EFFECTS];
    size_t effect_count;
} vg_placed;

/* A function. */
typedef struct vg_function_state {
    uint8_t live[VG_CONFIG_SPACE];     /* config space now; BAR registers are answered from `bars` instead */
    uint8_t power_on[VG_CONFIG_SPACE]; /* config space as it started; a reset brings it back */
    uint8_t mask[VG_CONFIG_SPACE];     /* the bits that a write may change */
    vg_bar_state bars[VG_SLOTS];       /* by slot */
    vg_placed placed;
    uint64_t revision; /* starts at 0; counts resets, and writes that change command bit 1, 2 or 10 */
} vg_function_state;

/* A bus. */
typedef struct vg_bus {
    vg_aperture aperture;
    uint8_t devices[VG_FUNCTIONS];             /* device numbers, ascending; zero past the count */
    vg_function_state functions[VG_FUNCTIONS]; /* the function of the device at the same index; zero past the count */
    size_t count;                              /* how many functions there are */
} vg_bus;

/* The buffer for a body: an answer of VG_KIND_EFFECT fills it with the capability's live body; else it holds what it held. */
typedef struct vg_snapshot {
    uint8_t length;                 /* bytes of the body */
    uint8_t bytes[VG_LONGEST_BODY]; /* the body; zero past it */
} vg_snapshot;

/* The effect that an access is inside; zero in every answer but VG_KIND_EFFECT. */
typedef struct vg_effect_told {
    uint8_t capability_id;
    vg_placed_effect region;
    uint16_t offset;        /* of the access, from the capability's start */
    uint16_t region_offset; /* of the access, from the region's own start; this plus the width is at most `region.length` */
} vg_effect_told;

/* `width` bytes at `offset` of a device. */
typedef struct vg_read_ask {
    size_t device; /* any number; one that is not declared reads all ones */
    size_t offset; /* in config space, a multiple of the width */
    size_t width;  /* 1, 2 or 4 */
} vg_read_ask;

typedef struct vg_read_result {
    uint8_t kind;    /* VG_KIND_REFUSED, _VALUE or _EFFECT */
    uint8_t refusal; /* 0, 18 or 19 */
    uint64_t value;  /* VG_KIND_VALUE: the bytes, little-endian; else 0 */
    vg_effect_told effect;
} vg_read_result;

/* `width` bytes of `value` at `offset` of a device. */
typedef struct vg_write_ask {
    size_t device;  /* any number; a write to one that is not declared is dropped */
    size_t offset;  /* in config space, a multiple of the width */
    size_t width;   /* 1, 2 or 4 */
    uint64_t value; /* little-endian; bytes beyond the width are ignored */
} vg_write_ask;

typedef struct vg_write_result {
    uint8_t kind;     /* VG_KIND_REFUSED, _STORED, _DROPPED, _PROBING, _MOVED, _KEPT or _EFFECT */
    uint8_t refusal;  /* 0, 18, 19 or 20 */
    uint8_t device;   /* refusal 20: the device; else 0 */
    size_t slot;      /* VG_KIND_PROBING, _MOVED, _KEPT: the BAR's slot; else 0 */
    uint64_t address; /* VG_KIND_MOVED, _KEPT: the committed address after the write; else 0 */
    vg_effect_told effect;
} vg_write_result;

/* `width` bytes at a memory address. */
typedef struct vg_lookup_ask {
    uint64_t address;
    size_t width; /* 1, 2, 4 or 8 */
} vg_lookup_ask;

typedef struct vg_lookup_result {
    uint8_t kind;    /* VG_KIND_REFUSED, _HIT or _MISS */
    uint8_t refusal; /* 0 or 18 */
    uint8_t device;  /* VG_KIND_HIT: whose BAR it is; else 0 */
    size_t slot;     /* VG_KIND_HIT: its slot; else 0 */
    uint64_t offset; /* VG_KIND_HIT: of the access in the BAR; else 0 */
} vg_lookup_result;

typedef struct vg_reset_result {
    uint8_t refusal; /* 0, or 20 where a revision was at its largest and stayed; all else is done */
    uint8_t device;  /* refusal 20: the lowest such device; else 0 */
} vg_reset_result;

typedef struct vg_start_result {
    uint8_t refusal; /* 0 to 17 */
    bool in_file;    /* of a refusal: whether the place is `offset`; else it is `device` and `index` */
    uint8_t device;  /* refusals 9 and 12 to 17 */
    size_t offset;   /* refusals 1 to 8, 10 and 11: where the field starts in the file; its length where 3 is given at the end */
    size_t index;    /* of the config byte (9), the capability (12, 13) or the slot (14 to 17) */
} vg_start_result;

/* Who made a function, and what it is. */
typedef struct vg_identity {
    uint16_t vendor;
    uint16_t device; /* the device id */
    uint16_t subsystem_vendor;
    uint16_t subsystem; /* the subsystem id */
    uint8_t revision;
    uint8_t base_class;
    uint8_t subclass;
    uint8_t programming_interface;
} vg_identity;

/* A BAR that was found. */
typedef struct vg_slot_report {
    uint64_t size; /* 0 where the slot is empty; a BAR of 4 GiB counts as empty */
    uint64_t address;
} vg_slot_report;

/* A capability that was found. */
typedef struct vg_listed {
    uint8_t offset;
    uint8_t id;
} vg_listed;

/* What a guest finds of a device; all zero where it is absent. */
typedef struct vg_report {
    bool present;
    vg_identity identity;
    uint8_t pin;                     /* 1 to 4; 0 without INTx */
    vg_slot_report slots[VG_SLOTS];  /* by slot */
    vg_listed list[VG_CAPABILITIES]; /* the capability list; zero past the count */
    size_t list_count;
} vg_report;

/* Puts the bus that a declaration file of `length` bytes declares into `bus`, in place of what it held; the empty one if refused. */
vg_start_result vg_start(vg_bus *bus, const uint8_t *file, size_t length);

/* Reads config space. */
vg_read_result vg_read(const vg_bus *bus, vg_snapshot *body, vg_read_ask ask);

/* Writes config space. */
vg_write_result vg_write(vg_bus *bus, vg_snapshot *body, vg_write_ask ask);

/* Finds the BAR that holds a memory access, among functions with command bit 1 set. */
vg_lookup_result vg_lookup(const vg_bus *bus, vg_lookup_ask ask);

/* Restores every function's config space and BARs, ends probing, and counts. */
vg_reset_result vg_reset(vg_bus *bus);

/* Reports a device as a guest would find it, by reads and writes. Where no BAR of the device probes, the bus stays as it was. */
vg_report vg_enumerate(vg_bus *bus, size_t device);

/* The layout that the library was compiled for. */
#define VG_SIZE(type, bytes) _Static_assert(sizeof(type) == (bytes), #type " has another size")
#define VG_AT(type, field, bytes) _Static_assert(offsetof(type, field) == (bytes), #type "." #field " lies elsewhere")

VG_SIZE(bool, 1);
VG_SIZE(size_t, 8);

VG_SIZE(vg_aperture, 16);
VG_AT(vg_aperture, start, 0);
VG_AT(vg_aperture, end, 8);

VG_SIZE(vg_plan, 24);
VG_AT(vg_plan, slot, 0);
VG_AT(vg_plan, size, 8);
VG_AT(vg_plan, address, 16);

VG_SIZE(vg_bar_state, 40);
VG_AT(vg_bar_state, plan, 0);
VG_AT(vg_bar_state, address, 24);
VG_AT(vg_bar_state, probing, 32);

VG_SIZE(vg_placed_capability, 6);
VG_AT(vg_placed_capability, id, 0);
VG_AT(vg_placed_capability, offset, 2);
VG_AT(vg_placed_capability, length, 4);

VG_SIZE(vg_placed_effect, 6);
VG_AT(vg_placed_effect, id, 0);
VG_AT(vg_placed_effect, capability, 2);
VG_AT(vg_placed_effect, offset, 3);
VG_AT(vg_placed_effect, length, 4);
VG_AT(vg_placed_effect, access, 5);

VG_SIZE(vg_placed, 304);
VG_AT(vg_placed, capabilities, 0);
VG_AT(vg_placed, count, 96);
VG_AT(vg_placed, effects, 104);
VG_AT(vg_placed, effect_count, 296);

VG_SIZE(vg_function_state, 1320);
VG_AT(vg_function_state, live, 0);
VG_AT(vg_function_state, power_on, 256);
VG_AT(vg_function_state, mask, 512);
VG_AT(vg_function_state, bars, 768);
VG_AT(vg_function_state, placed, 1008);
VG_AT(vg_function_state, revision, 1312);

VG_SIZE(vg_bus, 10592);
VG_AT(vg_bus, aperture, 0);
VG_AT(vg_bus, devices, 16);
VG_AT(vg_bus, functions, 24);
VG_AT(vg_bus, count, 10584);

VG_SIZE(vg_snapshot, 254);
VG_AT(vg_snapshot, length, 0);
VG_AT(vg_snapshot, bytes, 1);

VG_SIZE(vg_effect_told, 12);
VG_AT(vg_effect_told, capability_id, 0);
VG_AT(vg_effect_told, region, 2);
VG_AT(vg_effect_told, offset, 8);
VG_AT(vg_effect_told, region_offset, 10);

VG_SIZE(vg_read_ask, 24);
VG_AT(vg_read_ask, device, 0);
VG_AT(vg_read_ask, offset, 8);
VG_AT(vg_read_ask, width, 16);

VG_SIZE(vg_read_result, 32);
VG_AT(vg_read_result, kind, 0);
VG_AT(vg_read_result, refusal, 1);
VG_AT(vg_read_result, value, 8);
VG_AT(vg_read_result, effect, 16);

VG_SIZE(vg_write_ask, 32);
VG_AT(vg_write_ask, device, 0);
VG_AT(vg_write_ask, offset, 8);
VG_AT(vg_write_ask, width, 16);
VG_AT(vg_write_ask, value, 24);

VG_SIZE(vg_write_result, 40);
VG_AT(vg_write_result, kind, 0);
VG_AT(vg_write_result, refusal, 1);
VG_AT(vg_write_result, device, 2);
VG_AT(vg_write_result, slot, 8);
VG_AT(vg_write_result, address, 16);
VG_AT(vg_write_result, effect, 24);

VG_SIZE(vg_lookup_ask, 16);
VG_AT(vg_lookup_ask, address, 0);
VG_AT(vg_lookup_ask, width, 8);

VG_SIZE(vg_lookup_result, 24);
VG_AT(vg_lookup_result, kind, 0);
VG_AT(vg_lookup_result, refusal, 1);
VG_AT(vg_lookup_result, device, 2);
VG_AT(vg_lookup_result, slot, 8);
VG_AT(vg_lookup_result, offset, 16);

VG_SIZE(vg_reset_result, 2);
VG_AT(vg_reset_result, refusal, 0);
VG_AT(vg_reset_result, device, 1);

VG_SIZE(vg_start_result, 24);
VG_AT(vg_start_result, refusal, 0);
VG_AT(vg_start_result, in_file, 1);
VG_AT(vg_start_result, device, 2);
VG_AT(vg_start_result, offset, 8);
VG_AT(vg_start_result, index, 16);

VG_SIZE(vg_identity, 12);
VG_AT(vg_identity, vendor, 0);
VG_AT(vg_identity, device, 2);
VG_AT(vg_identity, subsystem_vendor, 4);
VG_AT(vg_identity, subsystem, 6);
VG_AT(vg_identity, revision, 8);
VG_AT(vg_identity, base_class, 9);
VG_AT(vg_identity, subclass, 10);
VG_AT(vg_identity, programming_interface, 11);

VG_SIZE(vg_slot_report, 16);
VG_AT(vg_slot_report, size, 0);
VG_AT(vg_slot_report, address, 8);

VG_SIZE(vg_listed, 2);
VG_AT(vg_listed, offset, 0);
VG_AT(vg_listed, id, 1);

VG_SIZE(vg_report, 152);
VG_AT(vg_report, present, 0);
VG_AT(vg_report, identity, 2);
VG_AT(vg_report, pin, 14);
VG_AT(vg_report, slots, 16);
VG_AT(vg_report, list, 112);
VG_AT(vg_report, list_count, 144);

#undef VG_SIZE
#undef VG_AT

#endif
