/* Reads and clears by bindings/c/nauvelppi.h: on fresh engines, after commands and inside one, on an engine that is not
 * sound. What must come out is worked out by hand from the rules and stands here as numbers. Prints how many checks
 * passed; a check that fails is a non-zero exit. */
#define PROGRAM "registers"
#include "engines.h"

/* Room for one triangle. */
enum { VERTICES = 3, POLYGONS = 1 };

static int32_t vertices[5 * VERTICES];
static uint32_t polygons[3 * POLYGONS];

static void take(const char *name, nauvelppi_engine *e, const uint32_t *words, size_t count)
{
    for (size_t i = 0; i < count; i++) {
        nauvelppi_call_answer r =
            nauvelppi_word_in_place(e, words[i], vertices, COUNT(vertices), polygons, COUNT(polygons));
        check(r.number == 0, name, "a word is refused");
    }
}

/* What a sound engine reads. */
typedef struct reading {
    uint32_t status;
    int32_t clip[16];
    int32_t corner[9];
    bool overflow;
} reading;

/* A call by value leaves the engine that it is given, and answers with number 0 and place 0. */
static void reads(const char *name, const nauvelppi_engine *e, const reading *expected)
{
    nauvelppi_engine given = *e;
    nauvelppi_status_answer s = nauvelppi_status(*e);
    check(s.number == 0 && s.place == 0, name, "the status is refused");
    check(s.status == expected->status, name, "another status");
    nauvelppi_matrix_answer m = nauvelppi_clip_matrix(*e);
    check(m.number == 0 && m.place == 0, name, "the clip matrix is refused");
    check(memcmp(m.matrix, expected->clip, sizeof m.matrix) == 0, name, "another clip matrix");
    nauvelppi_corner_answer c = nauvelppi_vector_matrix(*e);
    check(c.number == 0 && c.place == 0, name, "the vector matrix is refused");
    check(memcmp(c.corner, expected->corner, sizeof c.corner) == 0, name, "another vector matrix");
    nauvelppi_flag_answer f = nauvelppi_overflow(*e);
    check(f.number == 0 && f.place == 0, name, "the overflow flag is refused");
    check(f.flag == expected->overflow, name, "another overflow flag");
    check(same_cells(e, &given), name, "the engine that was passed by value is changed");
}

/* Every number and flag of the answer's engine, the free ones too, is that of `expected`. */
static void cleared(const char *name, nauvelppi_engine_answer r, const nauvelppi_engine *expected)
{
    check(r.number == 0 && r.place == 0, name, "refused");
    check(same_cells(&r.engine, expected), name, "another engine");
}

/* Both clears: the error flag and the projection level, the overflow flag, and nothing else. */
static void clears(const char *name, const nauvelppi_engine *e)
{
    nauvelppi_engine expected = *e;
    expected.core.registers.transform.error = false;
    expected.core.registers.transform.projection.level = 0;
    cleared(name, nauvelppi_clear_error(*e), &expected);
    expected = *e;
    expected.core.registers.geometry.overflow = false;
    cleared(name, nauvelppi_clear_overflow(*e), &expected);
}

static void fresh_engine(void)
{
    static const reading expected = {
        0,
        {4096, 0, 0, 0, 0, 4096, 0, 0, 0, 0, 4096, 0, 0, 0, 0, 4096},
        {4096, 0, 0, 0, 4096, 0, 0, 0, 4096},
        false,
    };
    nauvelppi_engine e = nauvelppi_start(VERTICES, POLYGONS).engine;
    reads("fresh", &e, &expected);
    clears("fresh", &e);
}

/* Mode 0: pop at level 0, an error that leaves level 1; unit, scale by 2, 1, 1. Mode 2: multiply by a 3x3 matrix, scale
 * by 2, 1, 1, which leaves the vector matrix, push three times. Then two triangles, of which the second is dropped. */
static const uint32_t words[] = {
    0x1b151210, 0, 1, 8192, 4096, 4096,
    0x111b1a10, 2, 100, -200, 300, 400, 500, -600, -700, 800, 1 << 20, 8192, 4096, 4096, 0,
    0x00001111, 0,
    0x25252540, 0, 0, 0, 0, 0x00252525, 0, 0, 0,
};

/* The clip matrix has the first row doubled by the scale of position, and the first column by that of projection. */
static const reading after = {
    0xa300,
    {400, -400, 600, 0, 800, 500, -600, 0, -1400, 800, 1 << 20, 0, 0, 0, 0, 4096},
    {100, -200, 300, 400, 500, -600, -700, 800, 1 << 20},
    true,
};

static void after_commands(void)
{
    nauvelppi_engine e = nauvelppi_start(VERTICES, POLYGONS).engine;
    take("commands", &e, words, COUNT(words));
    reads("after commands", &e, &after);
    clears("after commands", &e);

    /* inside 23h, with one parameter held; the command goes on after both clears */
    static const uint32_t first[] = {0x00000023, 0x00020001}, last[] = {3};
    take("a command begun", &e, first, COUNT(first));
    reads("inside a command", &e, &after);
    clears("inside a command", &e);
    reading expected = after;
    e = nauvelppi_clear_error(e).engine;
    expected.status = 0x0300;
    reads("error cleared", &e, &expected);
    e = nauvelppi_clear_overflow(e).engine;
    expected.overflow = false;
    reads("overflow cleared", &e, &expected);
    clears("nothing to clear", &e);
    take("the command's end", &e, last, COUNT(last));
    const nauvelppi_coordinates *p = &e.core.registers.geometry.position;
    check(p->x == 1 && p->y == 2 && p->z == 3, "the command's end", "another position");

    /* the projection level is 0 again: a push is no error */
    static const uint32_t push[] = {0x00001110, 0, 0};
    take("a push", &e, push, COUNT(push));
    expected.status = 0x2300;
    reads("after a push", &e, &expected);
}

/* Each bit of the status by itself. Of the position and vector level the sixth bit is not shown. */
static void status_bits(void)
{
    nauvelppi_engine sound = nauvelppi_start(VERTICES, POLYGONS).engine, e = sound;
    for (uint32_t level = 0; level < 64; level++) {
        e.core.registers.transform.pair.level = level;
        nauvelppi_status_answer s = nauvelppi_status(e);
        check(s.number == 0 && s.status == level % 32 << 8, "status", "position and vector level");
    }
    e = sound;
    e.core.registers.transform.projection.level = 1;
    check(nauvelppi_status(e).status == 1 << 13, "status", "projection level");
    e = sound;
    e.core.registers.transform.texture.level = 1;
    check(nauvelppi_status(e).status == 0, "status", "texture level");
    e = sound;
    e.core.registers.transform.error = true;
    check(nauvelppi_status(e).status == 1 << 15, "status", "error flag");
    e = sound;
    e.core.registers.geometry.overflow = true;
    check(nauvelppi_status(e).status == 0, "status", "overflow flag");
}

/* Both flags are set, and the projection level is 1: a read gives zeros, a clear the engine as it was. */
static void not_sound(void)
{
    static const int32_t zeros[16];
    nauvelppi_engine e = nauvelppi_start(VERTICES, POLYGONS).engine;
    take("before the refusals", &e, words, COUNT(words));
    e.core.registers.transform.mode = 4;

    nauvelppi_status_answer s = nauvelppi_status(e);
    check(s.number == 1 && s.place == 0 && s.status == 0, "not sound", "another status");
    nauvelppi_matrix_answer m = nauvelppi_clip_matrix(e);
    check(m.number == 1 && m.place == 0, "not sound", "the clip matrix is answered");
    check(memcmp(m.matrix, zeros, sizeof m.matrix) == 0, "not sound", "another clip matrix");
    nauvelppi_corner_answer c = nauvelppi_vector_matrix(e);
    check(c.number == 1 && c.place == 0, "not sound", "the vector matrix is answered");
    check(memcmp(c.corner, zeros, sizeof c.corner) == 0, "not sound", "another vector matrix");
    nauvelppi_flag_answer f = nauvelppi_overflow(e);
    check(f.number == 1 && f.place == 0 && !f.flag, "not sound", "another overflow flag");
    nauvelppi_engine_answer r = nauvelppi_clear_error(e);
    check(r.number == 1 && r.place == 0 && same_cells(&r.engine, &e), "not sound", "the error is cleared");
    r = nauvelppi_clear_overflow(e);
    check(r.number == 1 && r.place == 0 && same_cells(&r.engine, &e), "not sound", "the overflow is cleared");
}

int main(void)
{
    fresh_engine();
    after_commands();
    status_bits();
    not_sound();
    return all_passed();
}
