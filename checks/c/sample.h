/* A list that opens a strip and quads: its words, the buffers that are lent for it, and what it leaves, worked out by
 * hand from the rules. */
#ifndef SAMPLE_H
#define SAMPLE_H

#include "engines.h"

/* ---- The buffers */

/* The rooms are what the list below fills, to the last vertex and polygon; the buffers have one more of each. */
enum { VERTICES = 10, POLYGONS = 3, VERTEX_NUMBERS = 5 * (VERTICES + 1), POLYGON_NUMBERS = 3 * (POLYGONS + 1) };

static int32_t vertices[VERTEX_NUMBERS], vertices_before[VERTEX_NUMBERS];
static uint32_t polygons[POLYGON_NUMBERS], polygons_before[POLYGON_NUMBERS];

static inline int32_t vertex_filler(size_t i)
{
    return (int32_t)(7 * i) - 100;
}

static inline uint32_t polygon_filler(size_t i)
{
    return 0xc0de0000u + (uint32_t)i;
}

static inline void keep_buffers(void)
{
    memcpy(vertices_before, vertices, sizeof vertices);
    memcpy(polygons_before, polygons, sizeof polygons);
}

/* Whether the buffers hold the same as those kept. */
static inline int same_vertices(void)
{
    return memcmp(vertices, vertices_before, sizeof vertices) == 0;
}

static inline int same_polygons(void)
{
    return memcmp(polygons, polygons_before, sizeof polygons) == 0;
}

static inline void fill_buffers(void)
{
    for (size_t i = 0; i < VERTEX_NUMBERS; i++)
        vertices[i] = vertex_filler(i);
    for (size_t i = 0; i < POLYGON_NUMBERS; i++)
        polygons[i] = polygon_filler(i);
}

static inline void take_write(const char *name, nauvelppi_engine *e, uint32_t address, uint32_t value)
{
    nauvelppi_engine_answer r =
        nauvelppi_port_write(*e, address, value, vertices, VERTEX_NUMBERS, polygons, POLYGON_NUMBERS);
    check(r.number == 0 && r.place == 0, name, "a port write is refused");
    *e = r.engine;
}

/* ---- The list */

enum { FRONT = 0x001f00c0, BACK = 0x1e020040 };

static const uint32_t list[] = {
    /* mode 0, scale, mode 2, translate */
    0x1c101b10, 0, 8192, 4096, 4096, 2, 4096, (uint32_t)-8192, 2048,
    /* push, scale, colour, attributes */
    0x29201b11, 2049, 4096, (uint32_t)-4096, 0xffff, FRONT,
    /* triangle strip, a vertex, a vertex of 10-bit fields, colour */
    0x20242340, 2, 0x20001000, 0x0000f000, 0x200007ff, 0x8123,
    /* a vertex by XY, attributes for the next list, a vertex by differences, end; a dummy */
    0x41282925, 0x0064ffff, BACK, 0x3ffff801, 0xdeadbeef,
    /* pop, store, quads, a vertex by XZ */
    0x26401312, 1, 30, 1, 0x0014000a,
    /* a vertex by YZ, a vertex, a vertex by XY */
    0x00252327, 0x0007fffb, 0x80007fff, 0xabcd0000, 0,
};

/* Where the list is looked at on the way: how many words were taken then. */
enum { PUSHED = 10, SCALED = 13, STRIP_OF_3 = 23, STRIP_OF_4 = 25, STRIP_ENDED = 26 };

/* ---- What it leaves */

/* Position and vector after the translation, which the pop brings back; projection. */
static const int32_t moved[16] = {4096, 0, 0, 0, 0, 4096, 0, 0, 0, 0, 4096, 0, 4096, -8192, 2048, 4096};
static const int32_t projection[16] = {8192, 0, 0, 0, 0, 4096, 0, 0, 0, 0, 4096, 0, 0, 0, 0, 4096};

/* The strip's clip matrix has the rows (4098, 0, 0, 0), (0, 4096, 0, 0), (0, 0, -4096, 0), (8192, -8192, 2048, 4096).
 * Its vertices are at (4096, 8192, -4096), (-64, 64, -32768), (-1, 100, -32768) and (0, 98, 32767): the last Z is
 * -32768 - 1, kept to 16 bits. X is 4098 X / 4096, rounded down, plus 8192. */
#define STRIP_0 12290, 0, 6144, 4096, 32767
#define STRIP_1 8127, -8128, 34816, 4096, 32767
#define STRIP_2 8190, -8092, 34816, 4096, 0x123
#define STRIP_3 8192, -8094, -30719, 4096, 0x123
/* The quad's has (8192, 0, 0, 0), (0, 4096, 0, 0), (0, 0, 4096, 0), (8192, -8192, 2048, 4096); its vertices are at
 * (10, 98, 20), (10, -5, 7), (32767, -32768, 0) and (0, 0, 0). */
#define QUAD_0 8212, -8094, 2068, 4096, 0x123
#define QUAD_1 8212, -8197, 2055, 4096, 0x123
#define QUAD_2 73726, -40960, 2048, 4096, 0x123
#define QUAD_3 8192, -8192, 2048, 4096, 0x123

/* Triangle 0 is 0, 1, 2, triangle 1, odd, is 2, 1, 3. */
static const int32_t stored[5 * VERTICES] = {STRIP_0, STRIP_1, STRIP_2, STRIP_2, STRIP_1,
                                             STRIP_3, QUAD_0,  QUAD_1,  QUAD_2,  QUAD_3};
static const uint32_t stored_polygons[3 * POLYGONS] = {0, 3, FRONT, 3, 3, FRONT, 6, 4, BACK};

/* The buffers hold so many vertices and polygons of the list, and behind them what was there before. */
static inline void buffers_hold(const char *name, size_t vertex_count, size_t polygon_count)
{
    for (size_t i = 0; i < VERTEX_NUMBERS; i++)
        check(vertices[i] == (i < 5 * vertex_count ? stored[i] : vertex_filler(i)), name, "another vertex");
    for (size_t i = 0; i < POLYGON_NUMBERS; i++)
        check(polygons[i] == (i < 3 * polygon_count ? stored_polygons[i] : polygon_filler(i)), name,
              "another polygon");
}

/* No command is begun: a command word is due, which is where a hole is refused with 3. */
static inline void none_begun(const char *name, const nauvelppi_engine *e)
{
    nauvelppi_engine_answer r =
        nauvelppi_word(*e, 0x00110015, vertices, VERTEX_NUMBERS, polygons, POLYGON_NUMBERS);
    check(r.number == 3, name, "a command is begun");
}

/* After the whole list. */
static inline void ended(const char *name, const nauvelppi_engine *e)
{
    nauvelppi_engine expected = fresh(VERTICES, POLYGONS);
    nauvelppi_transform *t = &expected.core.registers.transform;
    nauvelppi_geometry *g = &expected.core.registers.geometry;
    memcpy(t->pair.position, moved, sizeof moved);
    memcpy(t->pair.vector, moved, sizeof moved);
    memcpy(t->projection.matrix, projection, sizeof projection);
    t->mode = 2;
    for (size_t slot = 0; slot <= 30; slot += 30) {
        memcpy(expected.core.stacks.positions + 16 * slot, moved, sizeof moved);
        memcpy(expected.core.stacks.vectors + 16 * slot, moved, sizeof moved);
    }
    g->colour = 0x123;
    g->given = BACK;
    g->attributes = BACK;
    g->waiting.list = 2;
    g->used.vertices = VERTICES;
    g->used.polygons = POLYGONS;
    check(same_core(e, &expected), name, "another engine");
    none_begun(name, e);
    buffers_hold(name, VERTICES, POLYGONS);
}

#endif
