/* Sequences of events in C, as crates/event_count writes and reads them: atoms WHAT ROUNDS, a hundred times a round. The structs and the calls
   are those of lv2/atom, where its headers are installed, and else the same ones written here. */
#include <stdint.h>
#include <stdio.h>
#include <stdlib.h>
#include <string.h>

enum { EVENTS = 1000, TIMES = 100, ROOM = 24016, INT = 1, SEQUENCE = 10 };

#define CALL __attribute__((noinline))

#if __has_include(<lv2/atom/forge.h>)
#include <lv2/atom/forge.h>
#include <lv2/atom/util.h>

static LV2_URID map_uri(LV2_URID_Map_Handle handle, const char *uri) {
    (void)handle;
    return !strcmp(uri, LV2_ATOM__Int) ? INT : !strcmp(uri, LV2_ATOM__Sequence) ? SEQUENCE : 100;
}

static LV2_Atom_Forge forge;

static void start(void) {
    static LV2_URID_Map map = { NULL, map_uri };
    lv2_atom_forge_init(&forge, &map);
}

CALL static int fill(uint8_t *bytes, int32_t first) {
    LV2_Atom_Forge_Frame frame;
    lv2_atom_forge_set_buffer(&forge, bytes, ROOM);
    if (!lv2_atom_forge_sequence_head(&forge, &frame, 0)) return 0;
    for (int32_t k = 0; k < EVENTS; k++)
        if (!lv2_atom_forge_frame_time(&forge, k) || !lv2_atom_forge_int(&forge, first + k)) return 0;
    lv2_atom_forge_pop(&forge, &frame);
    return 1;
}
#else
typedef struct { uint32_t size, type; } LV2_Atom;
typedef struct { LV2_Atom atom; int32_t body; } LV2_Atom_Int;
typedef struct { uint32_t unit, pad; } LV2_Atom_Sequence_Body;
typedef struct { LV2_Atom atom; LV2_Atom_Sequence_Body body; } LV2_Atom_Sequence;
typedef struct { union { int64_t frames; double beats; } time; LV2_Atom body; } LV2_Atom_Event;

/* A forge as the header has it: each write is bounded by the buffer, and every open container grows by it. */
typedef struct frame { struct frame *parent; uint32_t at; } Frame;

static struct { uint8_t *bytes; uint32_t offset, size; Frame *stack; } forge;

static void start(void) {}

static uint32_t forge_raw(const void *data, uint32_t size) {
    if (forge.offset + size > forge.size) return 0;
    uint32_t at = forge.offset + 1;
    memcpy(forge.bytes + forge.offset, data, size);
    forge.offset += size;
    for (Frame *f = forge.stack; f; f = f->parent) ((LV2_Atom *)(forge.bytes + f->at))->size += size;
    return at;
}

static uint32_t forge_write(const void *data, uint32_t size) {
    uint32_t at = forge_raw(data, size);
    if (at) {
        uint64_t pad = 0;
        uint32_t padding = ((size + 7) & ~7u) - size;
        forge_raw(&pad, padding);
    }
    return at;
}

CALL static int fill(uint8_t *bytes, int32_t first) {
    Frame frame = { NULL, 0 };
    forge.bytes = bytes, forge.offset = 0, forge.size = ROOM, forge.stack = NULL;
    LV2_Atom_Sequence head = { { sizeof(LV2_Atom_Sequence_Body), SEQUENCE }, { 0, 0 } };
    if (!forge_write(&head, sizeof head)) return 0;
    forge.stack = &frame;
    for (int32_t k = 0; k < EVENTS; k++) {
        int64_t time = k;
        LV2_Atom_Int number = { { sizeof(int32_t), INT }, first + k };
        if (!forge_write(&time, sizeof time) || !forge_write(&number, sizeof number)) return 0;
    }
    forge.stack = frame.parent;
    return 1;
}
#endif

static uint32_t padded(uint32_t size) { return (size + 7) & ~7u; }

/* What a reader that takes any bytes has to look at: sizes, the zeros of the unit and the pad, and those behind each atom. */
CALL static int check(const uint8_t *bytes, size_t length) {
    const LV2_Atom_Sequence *sequence = (const LV2_Atom_Sequence *)bytes;
    if (length < sizeof *sequence || sequence->atom.size != length - sizeof(LV2_Atom)) return 0;
    if (sequence->atom.type != SEQUENCE || sequence->body.unit || sequence->body.pad) return 0;
    for (size_t at = sizeof *sequence; at < length;) {
        const LV2_Atom_Event *event = (const LV2_Atom_Event *)(bytes + at);
        if (length - at < sizeof *event) return 0;
        size_t end = at + sizeof *event + event->body.size, next = at + sizeof *event + padded(event->body.size);
        if (length < next || event->body.type != INT || event->body.size != 4) return 0;
        for (size_t k = end; k < next; k++)
            if (bytes[k]) return 0;
        at = next;
    }
    return 1;
}

CALL static int64_t add(const LV2_Atom_Sequence *sequence, int64_t sum) {
    const uint8_t *end = (const uint8_t *)sequence + sizeof(LV2_Atom) + sequence->atom.size;
    for (const uint8_t *at = (const uint8_t *)(sequence + 1); at < end;) {
        const LV2_Atom_Event *event = (const LV2_Atom_Event *)at;
        if (event->body.type == INT) sum += event->time.frames + ((const LV2_Atom_Int *)&event->body)->body;
        at += sizeof *event + padded(event->body.size);
    }
    return sum;
}

int main(int argc, char **argv) {
    static _Alignas(8) uint8_t bytes[ROOM];
    if (argc != 3) return 1;
    long rounds = atol(argv[2]);
    int64_t sum = 0;
    int32_t first = 0;
    start();
    fill(bytes, 0);
    for (long round = 0; round < rounds; round++)
        for (int time = 0; time < TIMES; time++) {
            if (!strcmp(argv[1], "forge")) sum += fill(bytes, ++first);
            else if (!strcmp(argv[1], "walk")) sum = add((const LV2_Atom_Sequence *)bytes, sum);
            else if (check(bytes, ROOM)) sum = add((const LV2_Atom_Sequence *)bytes, sum);
        }
    printf("%lld\n", (long long)sum);
    return 0;
}
