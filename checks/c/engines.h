/* Engines: the commands, whether two engines are equal, the fresh one, free numbers. */
#ifndef ENGINES_H
#define ENGINES_H

#include "check.h"

/* ---- Commands */

/* How many parameters the command takes, -1 for a byte that is none. */
static inline int parameters(unsigned byte)
{
    switch (byte) {
    case 0x11: case 0x15: case 0x41:
        return 0;
    case 0x10: case 0x12: case 0x13: case 0x14: case 0x20: case 0x21: case 0x22: case 0x24: case 0x25: case 0x26:
    case 0x27: case 0x28: case 0x29: case 0x2a: case 0x2b: case 0x30: case 0x31: case 0x32: case 0x33: case 0x40:
    case 0x50: case 0x60: case 0x72:
        return 1;
    case 0x23: case 0x71:
        return 2;
    case 0x1b: case 0x1c: case 0x70:
        return 3;
    case 0x1a:
        return 9;
    case 0x17: case 0x19:
        return 12;
    case 0x16: case 0x18:
        return 16;
    case 0x34:
        return 32;
    default:
        return -1;
    }
}

/* A queue without a hole with 0 above its last command. */
static inline uint32_t commands(uint32_t queue)
{
    uint32_t kept = 0;
    for (int bits = 0; bits < 32 && parameters(queue >> bits & 0xff) >= 0; bits += 8)
        kept |= queue & UINT32_C(0xff) << bits;
    return kept;
}

/* ---- Equal engines, member by member: padding has no value */

#define SAME(member) (a->member == b->member)
#define SAME_NUMBERS(member) (memcmp(a->member, b->member, sizeof(a->member)) == 0)

static inline int same_transform(const nauvelppi_transform *a, const nauvelppi_transform *b)
{
    return SAME_NUMBERS(pair.position) && SAME_NUMBERS(pair.vector) && SAME(pair.level)
        && SAME_NUMBERS(projection.matrix) && SAME_NUMBERS(projection.slot) && SAME(projection.level)
        && SAME_NUMBERS(texture.matrix) && SAME_NUMBERS(texture.slot) && SAME(texture.level) && SAME(mode)
        && SAME(error);
}

/* All but the vertices that wait. */
static inline int same_geometry(const nauvelppi_geometry *a, const nauvelppi_geometry *b)
{
    return SAME(given) && SAME(attributes) && SAME(colour) && SAME(position.x) && SAME(position.y)
        && SAME(position.z) && SAME(waiting.list) && SAME(waiting.count) && SAME(used.vertices)
        && SAME(used.polygons) && SAME(rooms.vertices) && SAME(rooms.polygons) && SAME(overflow);
}

static inline int same_waiting(const nauvelppi_waiting *a, const nauvelppi_waiting *b, size_t count)
{
    return (count < 1 || SAME_NUMBERS(first)) && (count < 2 || SAME_NUMBERS(second))
        && (count < 3 || SAME_NUMBERS(third));
}

static inline int same_stacks(const nauvelppi_stacks *a, const nauvelppi_stacks *b)
{
    return SAME_NUMBERS(positions) && SAME_NUMBERS(vectors);
}

static inline int same_stream(const nauvelppi_stream *a, const nauvelppi_stream *b)
{
    return SAME(queue) && SAME_NUMBERS(held) && SAME(count) && SAME(dummy) && SAME(port);
}

/* All that the commands act on, and so many of the vertices that wait. */
static inline int same_but_stream(const nauvelppi_core *a, const nauvelppi_core *b, size_t count)
{
    return same_transform(&a->registers.transform, &b->registers.transform)
        && same_geometry(&a->registers.geometry, &b->registers.geometry)
        && same_waiting(&a->registers.geometry.waiting, &b->registers.geometry.waiting, count)
        && same_stacks(&a->stacks, &b->stacks);
}

/* Every number and flag, the free ones too. */
static inline int same_cells(const nauvelppi_engine *a, const nauvelppi_engine *b)
{
    return same_but_stream(&a->core, &b->core, 3) && same_stream(&a->stream, &b->stream);
}

/* All that the commands act on; the vertices past the count are free. */
static inline int same_core(const nauvelppi_engine *a, const nauvelppi_engine *b)
{
    return same_but_stream(&a->core, &b->core, a->core.registers.geometry.waiting.count);
}

/* All but what is free. */
static inline int same_meaning(const nauvelppi_engine *a, const nauvelppi_engine *b)
{
    return same_core(a, b) && commands(a->stream.queue) == commands(b->stream.queue) && SAME(stream.count)
        && memcmp(a->stream.held, b->stream.held, 4 * a->stream.count) == 0 && SAME(stream.dummy)
        && SAME(stream.port);
}

/* ---- The fresh engine */

static const int32_t unit[16] = {4096, 0, 0, 0, 0, 4096, 0, 0, 0, 0, 4096, 0, 0, 0, 0, 4096};

static inline nauvelppi_engine fresh(size_t vertex_room, size_t polygon_room)
{
    nauvelppi_engine e;
    memset(&e, 0, sizeof e);
    nauvelppi_transform *t = &e.core.registers.transform;
    memcpy(t->pair.position, unit, sizeof unit);
    memcpy(t->pair.vector, unit, sizeof unit);
    memcpy(t->projection.matrix, unit, sizeof unit);
    memcpy(t->texture.matrix, unit, sizeof unit);
    e.core.registers.geometry.rooms.vertices = vertex_room;
    e.core.registers.geometry.rooms.polygons = polygon_room;
    return e;
}

/* ---- Free numbers */

/* Something in every one of them: the waiting vertices past the count, the queue above its last command, the parameters
 * past those held. */
static inline void fill_free(nauvelppi_engine *e)
{
    nauvelppi_waiting *w = &e->core.registers.geometry.waiting;
    int32_t *const waiting[] = {w->first, w->second, w->third};
    for (size_t k = w->count; k < COUNT(waiting); k++)
        for (size_t i = 0; i < 5; i++)
            waiting[k][i] = -(int32_t)(5 * k + i) - 1000000;
    for (int bits = 0; bits < 32; bits += 8)
        if (commands(e->stream.queue) >> bits == 0)
            e->stream.queue |= UINT32_C(0xff) << bits;
    for (size_t i = e->stream.count; i < COUNT(e->stream.held); i++)
        e->stream.held[i] = 0xfee00000u + (uint32_t)i;
}

#endif
