/* Calls the engine of bindings/c/nauvelppi.h: a list word by word, the same commands as port writes, the stacks at
 * their ends, and the refusals of a sound engine. Every word is given both by value and in place. What must come out is
 * worked out by hand from the rules and stands here and in sample.h as numbers. Prints how many checks passed; a check
 * that fails is a non-zero exit. */
#define PROGRAM "engine"
#include "sample.h"

/* ---- Start */

static void started(const char *name, size_t vertex_room, size_t polygon_room, uint32_t number)
{
    nauvelppi_engine_answer r = nauvelppi_start(vertex_room, polygon_room);
    nauvelppi_engine expected = number == 0 ? fresh(vertex_room, polygon_room) : fresh(1, 1);
    check(r.number == number, name, "another number");
    check(r.place == 0, name, "another place");
    check(same_cells(&r.engine, &expected), name, "another engine");
}

static void start_checks(void)
{
    started("start", VERTICES, POLYGONS, 0);
    started("start, smallest rooms", 1, 1, 0);
    started("start, all vertices", SIZE_MAX, 1, 11);
    /* document 01, row 11: "Rooms 6,144 and 2,048 accepted; 6,145 or 0 refused 11" */
    started("start, largest rooms", 6144, 2048, 0);
    started("start, too many vertices", 6145, 2048, 11);
    started("start, too many polygons", 6144, 2049, 11);
    started("start, no vertices", 0, 2048, 11);
    started("start, no polygons", 6144, 0, 11);
}

/* ---- A list */

/* The same commands as port writes. */
static const uint32_t log_of_list[][2] = {
    {PORT(0x10), 0}, {PORT(0x1b), 8192}, {PORT(0x1b), 4096}, {PORT(0x1b), 4096}, {PORT(0x10), 2},
    {PORT(0x1c), 4096}, {PORT(0x1c), (uint32_t)-8192}, {PORT(0x1c), 2048}, {PORT(0x11), 77},
    {PORT(0x1b), 2049}, {PORT(0x1b), 4096}, {PORT(0x1b), (uint32_t)-4096}, {PORT(0x20), 0xffff},
    {PORT(0x29), FRONT}, {PORT(0x40), 2}, {PORT(0x23), 0x20001000}, {PORT(0x23), 0x0000f000},
    {PORT(0x24), 0x200007ff}, {PORT(0x20), 0x8123}, {PORT(0x25), 0x0064ffff}, {PORT(0x29), BACK},
    {PORT(0x28), 0x3ffff801}, {PORT(0x41), 0}, {PORT(0x12), 1}, {PORT(0x13), 30}, {PORT(0x40), 1},
    {PORT(0x26), 0x0014000a}, {PORT(0x27), 0x0007fffb}, {PORT(0x23), 0x80007fff}, {PORT(0x23), 0xabcd0000},
    {PORT(0x25), 0},
};

/* Position after the second scale. */
static const int32_t scaled[16] = {2049, 0, 0, 0, 0, 4096, 0, 0, 0, 0, -4096, 0, 4096, -8192, 2048, 4096};

static const int32_t strip[][5] = {{STRIP_0}, {STRIP_1}, {STRIP_2}, {STRIP_3}};

static void used(const char *name, const nauvelppi_geometry *g, size_t vertex_count, size_t polygon_count)
{
    check(g->used.vertices == vertex_count, name, "another count of vertices");
    check(g->used.polygons == polygon_count, name, "another count of polygons");
}

static void waits(const char *name, const nauvelppi_geometry *g, uint32_t kind, size_t count)
{
    check(g->waiting.list == kind, name, "another list");
    check(g->waiting.count == count, name, "another count of waiting vertices");
}

#define HOLDS(numbers, expected) (memcmp(numbers, expected, sizeof(expected)) == 0)

/* The same word by value and in place, each with buffers that hold the same: both answer the same and leave the same
 * engine and buffers. Of an engine that refuses, every number stays as it was; else free numbers can differ. */
static nauvelppi_call_answer both_ways(const char *name, nauvelppi_engine *e, uint32_t word, size_t vertices_length,
                                       size_t polygons_length)
{
    nauvelppi_engine given = *e;
    keep_buffers();
    nauvelppi_engine_answer r =
        nauvelppi_word(*e, word, vertices_before, vertices_length, polygons_before, polygons_length);
    check(same_cells(e, &given), name, "the engine that was passed by value is changed");
    nauvelppi_call_answer s = nauvelppi_word_in_place(e, word, vertices, vertices_length, polygons, polygons_length);
    check(s.number == r.number, name, "another number in place");
    check(s.place == r.place, name, "another place in place");
    check(r.number ? same_cells(e, &r.engine) : same_meaning(e, &r.engine), name, "another engine in place");
    check(same_vertices(), name, "other vertices in place");
    check(same_polygons(), name, "other polygons in place");
    return s;
}

static void take(const char *name, nauvelppi_engine *e, uint32_t word)
{
    nauvelppi_call_answer r = both_ways(name, e, word, VERTEX_NUMBERS, POLYGON_NUMBERS);
    check(r.number == 0 && r.place == 0, name, "a word is refused");
}

static void take_all(const char *name, nauvelppi_engine *e, const uint32_t *words, size_t count)
{
    for (size_t i = 0; i < count; i++)
        take(name, e, words[i]);
}

static void on_the_way(const nauvelppi_engine *e, size_t taken)
{
    const nauvelppi_transform *t = &e->core.registers.transform;
    const nauvelppi_geometry *g = &e->core.registers.geometry;
    const nauvelppi_stacks *slots = &e->core.stacks;
    const nauvelppi_waiting *w = &g->waiting;
    switch (taken) {
    case PUSHED:
        check(t->pair.level == 1, "list, pushed", "another level");
        check(HOLDS(slots->positions, moved) && HOLDS(slots->vectors, moved), "list, pushed", "another slot");
        break;
    case SCALED:
        check(HOLDS(t->pair.position, scaled), "list, scaled", "another position matrix");
        check(HOLDS(t->pair.vector, moved), "list, scaled", "another vector matrix");
        break;
    case STRIP_OF_3:
        used("list, a triangle", g, 3, 1);
        waits("list, a triangle", g, 4, 2);
        check(HOLDS(w->first, strip[1]) && HOLDS(w->second, strip[2]), "list, a triangle", "others wait");
        check(g->attributes == FRONT, "list, a triangle", "other attributes");
        buffers_hold("list, a triangle", 3, 1);
        break;
    case STRIP_OF_4:
        used("list, two triangles", g, 6, 2);
        waits("list, two triangles", g, 3, 2);
        check(HOLDS(w->first, strip[2]) && HOLDS(w->second, strip[3]), "list, two triangles", "others wait");
        check(g->given == BACK && g->attributes == FRONT, "list, two triangles", "other attributes");
        check(e->stream.dummy, "list, two triangles", "no dummy is due");
        break;
    case STRIP_ENDED:
        none_begun("list, dummy", e);
        break;
    }
}

/* What a pop of 1 at level 0 does where slot 31 was not used: zeros are loaded from it. */
static void popped_once(nauvelppi_transform *t)
{
    memset(t->pair.position, 0, sizeof t->pair.position);
    memset(t->pair.vector, 0, sizeof t->pair.vector);
    t->pair.level = 63;
    t->error = true;
}

/* A polygon more than there is room for, and a pop at level 0: two flags, the list, and what the pop does. */
static void flags(nauvelppi_engine *e)
{
    static const uint32_t more[] = {0x25252540, 0, 0, 0, 0, 0x00000012, 1};
    nauvelppi_engine expected = *e;
    take_all("list, one polygon more", e, more, COUNT(more));
    expected.core.registers.geometry.waiting.list = 1;
    expected.core.registers.geometry.overflow = true;
    popped_once(&expected.core.registers.transform);
    check(same_core(e, &expected), "list, one polygon more", "another engine");
    buffers_hold("list, one polygon more", VERTICES, POLYGONS);
}

static void list_checks(void)
{
    nauvelppi_engine by_words = nauvelppi_start(VERTICES, POLYGONS).engine, by_writes = by_words;

    fill_buffers();
    for (size_t i = 0; i < COUNT(log_of_list); i++)
        take_write("port writes", &by_writes, log_of_list[i][0], log_of_list[i][1]);
    ended("port writes", &by_writes);

    fill_buffers();
    for (size_t i = 0; i < COUNT(list); i++) {
        take("list", &by_words, list[i]);
        on_the_way(&by_words, i + 1);
    }
    ended("list", &by_words);
    check(same_core(&by_words, &by_writes), "list", "another engine than by port writes");
    flags(&by_words);
}

/* ---- Stacks */

/* A stack command with its parameter, or a dummy, at a level: the slot that it stores in or loads, the level after it,
 * and whether it is an error. */
typedef struct move {
    const char *name;
    uint32_t command, parameter;
    size_t level, slot, after;
    bool error;
} move;

enum { PUSH = 0x11, POP = 0x12, STORE = 0x13, RESTORE = 0x14 };

/* In modes 1 and 2. The number of a pop is bits 0-5, the slot of store and restore bits 0-4. */
static const move pair_moves[] = {
    {"push at 0", PUSH, 0, 0, 0, 1, false},
    {"push at 30", PUSH, 0, 30, 30, 31, false},
    /* document 01, row 4, as document 02 has it: "row 4 gives level 32" */
    {"push at 31", PUSH, 0, 31, 31, 32, true},
    {"push at 32", PUSH, 0, 32, 0, 33, true},
    {"push at 62", PUSH, 0, 62, 30, 63, true},
    {"push at 63", PUSH, 0, 63, 31, 0, true},
    {"pop 1 at 0", POP, 1, 0, 31, 63, true},
    {"pop 1 at 1", POP, 1, 1, 0, 0, false},
    {"pop 1 at 31", POP, 1, 31, 30, 30, false},
    {"pop 1 at 32", POP, 1, 32, 31, 31, true},
    {"pop 1 at 33", POP, 1, 33, 0, 32, true},
    {"pop 0 at 63", POP, 0, 63, 31, 63, true},
    {"pop -1 at 63", POP, 0x3f, 63, 0, 0, false},
    {"pop -1 at 30", POP, 0x3f, 30, 31, 31, true},
    {"pop -32 at 0", POP, 0x20, 0, 0, 32, true},
    {"pop 1 with other bits", POP, 0xffffffc1, 5, 4, 4, false},
    {"store 30", STORE, 30, 63, 30, 63, false},
    {"store 31", STORE, 31, 0, 31, 0, true},
    {"store 0 with other bits", STORE, 0xffffffe0, 5, 0, 5, false},
    {"restore 30", RESTORE, 30, 63, 30, 63, false},
    {"restore 31", RESTORE, 31, 0, 31, 0, true},
    {"restore 0 with other bits", RESTORE, 0xffffffe0, 5, 0, 5, false},
};

/* In modes 0 and 3, whose stacks have one slot. */
static const move single_moves[] = {
    {"one slot, push at 0", PUSH, 0, 0, 0, 1, false},
    {"one slot, push at 1", PUSH, 0, 1, 0, 0, true},
    {"one slot, pop at 0", POP, 1, 0, 0, 1, true},
    {"one slot, pop at 1", POP, 0x3f, 1, 0, 0, false},
    {"one slot, store 31 at 0", STORE, 31, 0, 0, 0, false},
    {"one slot, store 31 at 1", STORE, 31, 1, 0, 1, false},
    {"one slot, restore 31 at 0", RESTORE, 31, 0, 0, 0, false},
    {"one slot, restore 31 at 1", RESTORE, 31, 1, 0, 1, false},
};

/* An engine that C makes: other numbers in each matrix and slot. */
static nauvelppi_engine numbered(void)
{
    nauvelppi_engine e = fresh(VERTICES, POLYGONS);
    nauvelppi_transform *t = &e.core.registers.transform;
    int32_t *const short_runs[] = {t->pair.position, t->pair.vector, t->projection.matrix, t->projection.slot,
                                   t->texture.matrix, t->texture.slot};
    for (int32_t i = 0; i < 512; i++) {
        e.core.stacks.positions[i] = 1000 + i;
        e.core.stacks.vectors[i] = 2000 + i;
    }
    for (size_t k = 0; k < COUNT(short_runs); k++)
        for (int32_t i = 0; i < 16; i++)
            short_runs[k][i] = -100 * (int32_t)(k + 1) - i;
    return e;
}

static size_t *level_in(uint32_t mode, nauvelppi_transform *t)
{
    return mode == 0 ? &t->projection.level : mode == 3 ? &t->texture.level : &t->pair.level;
}

/* A push or store copies to the slot, a pop or restore from it. */
static void copy(int to_slot, int32_t *matrix, int32_t *slot)
{
    memcpy(to_slot ? slot : matrix, to_slot ? matrix : slot, 16 * sizeof *slot);
}

static void moves_in(uint32_t mode, const move *m)
{
    nauvelppi_engine e = numbered();
    e.core.registers.transform.mode = mode;
    *level_in(mode, &e.core.registers.transform) = m->level;

    nauvelppi_engine expected = e;
    nauvelppi_transform *t = &expected.core.registers.transform;
    int to_slot = m->command == PUSH || m->command == STORE;
    if (mode == 0)
        copy(to_slot, t->projection.matrix, t->projection.slot);
    else if (mode == 3)
        copy(to_slot, t->texture.matrix, t->texture.slot);
    else {
        copy(to_slot, t->pair.position, expected.core.stacks.positions + 16 * m->slot);
        copy(to_slot, t->pair.vector, expected.core.stacks.vectors + 16 * m->slot);
    }
    *level_in(mode, t) = m->after;
    t->error = m->error;

    take(m->name, &e, m->command);
    take(m->name, &e, m->parameter);
    check(same_meaning(&e, &expected), m->name, "another engine");
}

/* From a fresh engine 31 pushes, one more and a pop of 2, which is no error and leaves the flag. */
static void pushes(uint32_t mode)
{
    const uint32_t translate[] = {0x00001c10, mode, 4096, (uint32_t)-8192, 2048};
    static const uint32_t push[] = {PUSH, 0}, pop[] = {POP, 2};
    nauvelppi_engine e = nauvelppi_start(VERTICES, POLYGONS).engine, expected = e;
    nauvelppi_transform *t = &expected.core.registers.transform;
    const int32_t *vector = mode == 1 ? unit : moved;
    t->mode = mode;
    memcpy(t->pair.position, moved, sizeof moved);
    memcpy(t->pair.vector, vector, sizeof moved);

    take_all("pushes", &e, translate, COUNT(translate));
    for (size_t level = 0; level < 32; level++) {
        take_all("pushes", &e, push, COUNT(push));
        memcpy(expected.core.stacks.positions + 16 * level, moved, sizeof moved);
        memcpy(expected.core.stacks.vectors + 16 * level, vector, sizeof moved);
        t->pair.level = level + 1;
        t->error = level == 31;
        check(same_meaning(&e, &expected), "pushes", "another engine");
    }
    take_all("pushes, pop 2", &e, pop, COUNT(pop));
    t->pair.level = 30;
    check(same_meaning(&e, &expected), "pushes, pop 2", "another engine");
}

/* document 01, row 5, as document 02 has it: "Row 5's pop 1 gives level 63, slot 31 loaded and the error set" */
static void pop_of_fresh(uint32_t mode)
{
    const uint32_t pop[] = {0x00001210, mode, 1};
    nauvelppi_engine e = nauvelppi_start(VERTICES, POLYGONS).engine, expected = e;
    take_all("pop 1 of a fresh engine", &e, pop, COUNT(pop));
    expected.core.registers.transform.mode = mode;
    popped_once(&expected.core.registers.transform);
    check(same_meaning(&e, &expected), "pop 1 of a fresh engine", "another engine");
}

/* Push, translate, push: the second stores the translation in the one slot and leaves level 0, an error. */
static void two_pushes(uint32_t mode)
{
    static const int32_t translated[16] = {4096, 0, 0, 0, 0, 4096, 0, 0, 0, 0, 4096, 0, 1, 2, 3, 4096};
    const uint32_t words[] = {0x111c1110, mode, 1, 2, 3, 0};
    nauvelppi_engine e = nauvelppi_start(VERTICES, POLYGONS).engine, expected = e;
    nauvelppi_transform *t = &expected.core.registers.transform;
    nauvelppi_single *single = mode == 0 ? &t->projection : &t->texture;
    take_all("one slot, two pushes", &e, words, COUNT(words));
    memcpy(single->matrix, translated, sizeof translated);
    memcpy(single->slot, translated, sizeof translated);
    t->mode = mode;
    t->error = true;
    check(same_meaning(&e, &expected), "one slot, two pushes", "another engine");
}

static void stack_checks(void)
{
    for (uint32_t mode = 1; mode <= 2; mode++) {
        for (size_t i = 0; i < COUNT(pair_moves); i++)
            moves_in(mode, &pair_moves[i]);
        pushes(mode);
        pop_of_fresh(mode);
    }
    for (uint32_t mode = 0; mode <= 3; mode += 3) {
        for (size_t i = 0; i < COUNT(single_moves); i++)
            moves_in(mode, &single_moves[i]);
        two_pushes(mode);
    }
}

/* ---- Refusals */

static nauvelppi_engine sound;

static void refusal(const char *name, const nauvelppi_engine_answer *r, const nauvelppi_engine *e, uint32_t number)
{
    check(r->number == number, name, "another number");
    check(r->place == 0, name, "another place");
    check(same_cells(&r->engine, e), name, "the engine is changed");
    check(same_vertices(), name, "the vertices are changed");
    check(same_polygons(), name, "the polygons are changed");
}

static void refused_word(const char *name, const nauvelppi_engine *e, uint32_t word, size_t vertices_length,
                         size_t polygons_length, uint32_t number)
{
    nauvelppi_engine in_place = *e;
    keep_buffers();
    nauvelppi_engine_answer r = nauvelppi_word(*e, word, vertices, vertices_length, polygons, polygons_length);
    refusal(name, &r, e, number);
    nauvelppi_call_answer s = both_ways(name, &in_place, word, vertices_length, polygons_length);
    check(s.number == number && s.place == 0 && same_cells(&in_place, e), name, "another answer in place");
}

static void refused_write(const char *name, const nauvelppi_engine *e, uint32_t address, size_t vertices_length,
                          size_t polygons_length, uint32_t number)
{
    keep_buffers();
    nauvelppi_engine_answer r =
        nauvelppi_port_write(*e, address, 5, vertices, vertices_length, polygons, polygons_length);
    refusal(name, &r, e, number);
}

static void short_buffers(void)
{
    refused_word("vertices one short", &sound, 0x00000020, 5 * VERTICES - 1, 3 * POLYGONS, 2);
    refused_word("polygons one short", &sound, 0x00000020, 5 * VERTICES, 3 * POLYGONS - 1, 2);
    refused_word("2 before 3", &sound, 0x00110015, 0, 0, 2);
    refused_write("vertices one short, port", &sound, PORT(0x20), 5 * VERTICES - 1, 3 * POLYGONS, 2);
    refused_write("polygons one short, port", &sound, PORT(0x20), 5 * VERTICES, 3 * POLYGONS - 1, 2);
    refused_write("2 before 5", &sound, PORT(0x73), 0, 0, 2);
    nauvelppi_engine_answer r =
        nauvelppi_word(sound, 0, vertices, 5 * VERTICES, polygons, 3 * POLYGONS);
    check(r.number == 0, "buffers just long enough", "another number");
}

static void begun_checks(void)
{
    nauvelppi_engine packed = sound, dummy = sound, port = sound;
    take("a packed word begun", &packed, 0x00000023);
    take("a packed word begun", &packed, 0x11112222);
    take("a dummy due", &dummy, 0x00000015);
    take_write("a port command begun", &port, PORT(0x23), 0x33334444);

    refused_write("4, a packed command", &packed, PORT(0x23), VERTEX_NUMBERS, POLYGON_NUMBERS, 4);
    refused_write("4, a dummy", &dummy, PORT(0x20), VERTEX_NUMBERS, POLYGON_NUMBERS, 4);
    refused_write("5 before 4", &packed, PORT(0x23) + 2, VERTEX_NUMBERS, POLYGON_NUMBERS, 5);
    refused_write("2 before 4, port", &packed, PORT(0x23), 0, POLYGON_NUMBERS, 2);
    refused_word("4, a port command", &port, 0x00000020, VERTEX_NUMBERS, POLYGON_NUMBERS, 4);
    refused_word("4 before 3", &port, 0x00110015, VERTEX_NUMBERS, POLYGON_NUMBERS, 4);
    refused_word("2 before 4", &port, 0x00000020, VERTEX_NUMBERS, 0, 2);
    refused_write("6", &port, PORT(0x24), VERTEX_NUMBERS, POLYGON_NUMBERS, 6);
    refused_write("6, a port without parameters", &port, PORT(0x15), VERTEX_NUMBERS, POLYGON_NUMBERS, 6);
    refused_write("5 before 6", &port, PORT(0x73), VERTEX_NUMBERS, POLYGON_NUMBERS, 5);

    /* what was begun goes on; a parameter is no command word */
    take("a packed word ended", &packed, 0x00110015);
    const nauvelppi_coordinates *by_words = &packed.core.registers.geometry.position;
    check(by_words->z == 0x15, "a packed word ended", "another Z");
    none_begun("a packed word ended", &packed);
    take_write("a port command ended", &port, PORT(0x23), 0x5555);
    const nauvelppi_coordinates *at_port = &port.core.registers.geometry.position;
    check(at_port->x == 0x4444 && at_port->y == 0x3333 && at_port->z == 0x5555, "a port command ended",
          "another position");
    none_begun("a port command ended", &port);
}

static void refusal_checks(void)
{
    /* a sound engine with a strip open, two vertices waiting, and something in every free cell */
    sound = nauvelppi_start(VERTICES, POLYGONS).engine;
    fill_buffers();
    for (size_t i = 0; i < STRIP_ENDED; i++)
        take("before the refusals", &sound, list[i]);
    fill_free(&sound);
    waits("before the refusals", &sound.core.registers.geometry, 3, 2);

    short_buffers();
    refused_word("a hole", &sound, 0x00110015, VERTEX_NUMBERS, POLYGON_NUMBERS, 3);
    refused_word("an unknown byte below a command", &sound, 0x00001099, VERTEX_NUMBERS, POLYGON_NUMBERS, 3);
    refused_write("no known command's port", &sound, PORT(0x73), VERTEX_NUMBERS, POLYGON_NUMBERS, 5);
    refused_write("between two ports", &sound, PORT(0x20) + 1, VERTEX_NUMBERS, POLYGON_NUMBERS, 5);
    refused_write("address 0", &sound, 0, VERTEX_NUMBERS, POLYGON_NUMBERS, 5);
    begun_checks();
}

int main(void)
{
    start_checks();
    list_checks();
    stack_checks();
    refusal_checks();
    return all_passed();
}
