/* Engines that C makes itself, at the edges of each range that bindings/c/nauvelppi.h gives: with a member at its last
 * sound value every call takes the engine, with the member one past it every call refuses with 1 and leaves all as it
 * was. Prints how many checks passed; a check that fails is a non-zero exit. */
#define PROGRAM "sound"
#include "engines.h"

enum { VERTICES = 6144, POLYGONS = 2048 };

static int32_t vertices[5 * VERTICES], vertices_before[5 * VERTICES];
static uint32_t polygons[3 * POLYGONS], polygons_before[3 * POLYGONS];

/* The engine of each case: made anew by `begin`, then changed through these. */
static nauvelppi_engine e;
static nauvelppi_transform *const transform = &e.core.registers.transform;
static nauvelppi_geometry *const geometry = &e.core.registers.geometry;
static nauvelppi_waiting *const waiting = &e.core.registers.geometry.waiting;
static nauvelppi_stream *const stream = &e.stream;

static void fill_numbers(int32_t *numbers, size_t count, int32_t first)
{
    for (size_t i = 0; i < count; i++)
        numbers[i] = first + (int32_t)i;
}

/* A sound engine with no command begun: a strip is open, two vertices wait, and every free number has a value with
 * which it would not be sound if it were looked at. */
static void begin(void)
{
    memset(&e, 0x5a, sizeof e);
    fill_numbers(transform->pair.position, 16, INT32_MIN);
    fill_numbers(transform->pair.vector, 16, INT32_MAX - 15);
    fill_numbers(transform->projection.matrix, 16, -8);
    fill_numbers(transform->projection.slot, 16, 4096);
    fill_numbers(transform->texture.matrix, 16, 1 << 30);
    fill_numbers(transform->texture.slot, 16, -4096);
    fill_numbers(e.core.stacks.positions, COUNT(e.core.stacks.positions), INT32_MIN);
    fill_numbers(e.core.stacks.vectors, COUNT(e.core.stacks.vectors), INT32_MAX - 511);
    transform->pair.level = 3;
    transform->projection.level = 0;
    transform->texture.level = 0;
    transform->mode = 1;
    transform->error = false;
    geometry->given = UINT32_MAX;
    geometry->attributes = UINT32_MAX;
    geometry->colour = 0x1234;
    geometry->position = (nauvelppi_coordinates){INT16_MIN, INT16_MAX, -1};
    waiting->list = 3;
    waiting->count = 2;
    fill_numbers(waiting->first, 4, INT32_MIN);
    fill_numbers(waiting->second, 4, INT32_MAX - 3);
    fill_numbers(waiting->third, 4, 0);
    waiting->first[4] = 0;
    waiting->second[4] = 32767;
    waiting->third[4] = -1;
    geometry->used = (nauvelppi_counts){3, 1};
    geometry->rooms = (nauvelppi_counts){8, 4};
    geometry->overflow = false;
    stream->queue = 0xff730f00;
    memset(stream->held, 0xff, sizeof stream->held);
    stream->count = 0;
    stream->dummy = false;
    stream->port = 0;
}

/* ---- Taken, and refused with 1 */

static size_t cases;

/* The packed word is accepted, also as a list, unless a port command is begun; so is the write, to the port begun or to
 * any, unless a packed word is; a list of no words always is. */
static void is_sound(const char *name)
{
    const uint32_t word = 0;
    nauvelppi_engine given = e;
    int packed = commands(stream->queue) != 0 || stream->dummy;
    uint32_t port = PORT(stream->port ? stream->port : 0x20);
    check(nauvelppi_word(e, word, vertices, COUNT(vertices), polygons, COUNT(polygons)).number
              == (stream->port ? 4 : 0),
          name, "another number, word");
    check(nauvelppi_words(e, &word, 1, vertices, COUNT(vertices), polygons, COUNT(polygons)).number
              == (stream->port ? 4 : 0),
          name, "another number, list of a word");
    check(nauvelppi_words(e, &word, 0, vertices, COUNT(vertices), polygons, COUNT(polygons)).number == 0, name,
          "another number, empty list");
    check(nauvelppi_port_write(e, port, 0, vertices, COUNT(vertices), polygons, COUNT(polygons)).number
              == (packed ? 4 : 0),
          name, "another number, port write");
    check(nauvelppi_status(e).number == 0, name, "another number, status");
    check(nauvelppi_clip_matrix(e).number == 0, name, "another number, clip matrix");
    check(nauvelppi_vector_matrix(e).number == 0, name, "another number, vector matrix");
    check(nauvelppi_overflow(e).number == 0, name, "another number, overflow");
    check(nauvelppi_clear_error(e).number == 0, name, "another number, error cleared");
    check(nauvelppi_clear_overflow(e).number == 0, name, "another number, overflow cleared");
    check(same_cells(&e, &given), name, "the engine that was passed by value is changed");
    nauvelppi_call_answer r = nauvelppi_word_in_place(&e, word, vertices, COUNT(vertices), polygons, COUNT(polygons));
    check(r.number == (given.stream.port ? 4 : 0), name, "another number, word in place");
    e = given;
    cases++;
}

static void handed_back(const char *name, nauvelppi_engine_answer r)
{
    check(r.number == 1, name, "another number");
    check(r.place == 0, name, "another place");
    check(same_cells(&r.engine, &e), name, "the engine is changed");
}

static void list_handed_back(const char *name, nauvelppi_list_answer r)
{
    check(r.number == 1, name, "another number, list");
    check(r.place == 0 && r.taken == 0, name, "another place, list");
    check(same_cells(&r.engine, &e), name, "the engine is changed, list");
}

static void word_and_write(const char *name, uint32_t word, uint32_t address, size_t vertices_length,
                           size_t polygons_length)
{
    nauvelppi_engine own = e;
    handed_back(name, nauvelppi_word(e, word, vertices, vertices_length, polygons, polygons_length));
    for (size_t count = 0; count < 2; count++)
        list_handed_back(name,
                         nauvelppi_words(e, &word, count, vertices, vertices_length, polygons, polygons_length));
    handed_back(name, nauvelppi_port_write(e, address, 5, vertices, vertices_length, polygons, polygons_length));
    nauvelppi_call_answer r =
        nauvelppi_word_in_place(&own, word, vertices, vertices_length, polygons, polygons_length);
    check(r.number == 1 && r.place == 0, name, "another number in place");
    check(same_cells(&own, &e), name, "the engine is changed in place");
}

/* Also before anything else: short buffers, a hole, an address that is no port. */
static void is_not_sound(const char *name)
{
    static const int32_t zeros[16];
    memcpy(vertices_before, vertices, sizeof vertices);
    memcpy(polygons_before, polygons, sizeof polygons);
    word_and_write(name, 0x00000020, PORT(0x20), COUNT(vertices), COUNT(polygons));
    word_and_write(name, 0x00110015, PORT(0x73), 0, 0);
    check(memcmp(vertices, vertices_before, sizeof vertices) == 0, name, "the vertices are changed");
    check(memcmp(polygons, polygons_before, sizeof polygons) == 0, name, "the polygons are changed");
    handed_back(name, nauvelppi_clear_error(e));
    handed_back(name, nauvelppi_clear_overflow(e));
    nauvelppi_status_answer s = nauvelppi_status(e);
    check(s.number == 1 && s.place == 0 && s.status == 0, name, "another status");
    nauvelppi_matrix_answer m = nauvelppi_clip_matrix(e);
    check(m.number == 1 && m.place == 0 && memcmp(m.matrix, zeros, sizeof m.matrix) == 0, name, "another matrix");
    nauvelppi_corner_answer c = nauvelppi_vector_matrix(e);
    check(c.number == 1 && c.place == 0 && memcmp(c.corner, zeros, sizeof c.corner) == 0, name, "another corner");
    nauvelppi_flag_answer f = nauvelppi_overflow(e);
    check(f.number == 1 && f.place == 0 && !f.flag, name, "another flag");
    cases++;
}

static void is_sound_if(int sound, const char *name)
{
    (sound ? is_sound : is_not_sound)(name);
}

/* ---- Ranges */

/* A number of the engine, of `width` bytes, that is sound from `first` to `last`: both are taken. The number before and
 * the one behind are not, nor those that would pass if they were cut to fewer bits or read as signed. */
static void range(const char *name, void *member, size_t width, uint64_t first, uint64_t last)
{
    const uint64_t edges[] = {first, last};
    const uint64_t past[] = {last + 1, first - 1, UINT32_MAX, first + (UINT64_C(1) << 16),
                             first + (UINT64_C(1) << 31), first + (UINT64_C(1) << 32)};
    for (size_t i = 0; i < COUNT(edges); i++) {
        begin();
        memcpy(member, &edges[i], width);
        is_sound(name);
    }
    for (size_t i = 0; i < COUNT(past); i++) {
        begin();
        if (past[i] >> 8 * (width - 1) <= 0xff) {
            memcpy(member, &past[i], width);
            is_not_sound(name);
        }
    }
}

#define RANGE(member, first, last) range(#member, &member, sizeof member, first, last)

static void ranges(void)
{
    RANGE(transform->pair.level, 0, 63);
    RANGE(transform->projection.level, 0, 1);
    RANGE(transform->texture.level, 0, 1);
    RANGE(transform->mode, 0, 3);
    RANGE(geometry->colour, 0, 32767);
    /* three vertices and one polygon are used, of rooms for eight and four */
    RANGE(geometry->rooms.vertices, 3, 6144);
    RANGE(geometry->rooms.polygons, 1, 2048);
    RANGE(geometry->used.vertices, 0, 8);
    RANGE(geometry->used.polygons, 0, 4);
    /* two vertices wait in a triangle strip */
    RANGE(waiting->list, 1, 5);
    RANGE(waiting->count, 0, 2);
    /* nothing is begun */
    RANGE(stream->count, 0, 0);
}

static void rooms(void)
{
    for (size_t used = 0; used < 3; used++)
        for (size_t room = 0; room < 3; room++) {
            begin();
            geometry->rooms.vertices = room;
            geometry->used.vertices = used;
            is_sound_if(1 <= room && used <= room, "vertices used and room");
            begin();
            geometry->rooms.polygons = room;
            geometry->used.polygons = used;
            is_sound_if(1 <= room && used <= room, "polygons used and room");
        }
    begin();
    geometry->rooms = geometry->used = (nauvelppi_counts){VERTICES, POLYGONS};
    is_sound("largest rooms, all used");
}

static void flags(void)
{
    begin();
    transform->error = true;
    is_sound("error flag");
    geometry->overflow = true;
    is_sound("overflow flag");
}

/* ---- Waiting vertices */

static void waiting_vertices(void)
{
    static const size_t most[] = {0, 2, 3, 2, 2, 3};
    static const int32_t colours[] = {0, 32767, -1, 32768, INT32_MIN, INT32_MAX};
    int32_t *const colour[] = {&waiting->first[4], &waiting->second[4], &waiting->third[4]};
    for (uint32_t list = 0; list < COUNT(most); list++) {
        for (size_t count = 0; count < 5; count++) {
            begin();
            waiting->list = list;
            waiting->count = count;
            waiting->third[4] = 0;
            is_sound_if(count <= most[list], "list and count");
        }
        for (size_t count = 0; count <= most[list]; count++)
            for (size_t vertex = 0; vertex < 3; vertex++)
                for (size_t i = 0; i < COUNT(colours); i++) {
                    begin();
                    waiting->list = list;
                    waiting->count = count;
                    waiting->third[4] = 0;
                    *colour[vertex] = colours[i];
                    is_sound_if(vertex >= count || (0 <= colours[i] && colours[i] <= 32767), "colour that waits");
                }
    }
}

/* ---- The command stream */

/* Every byte as the next command of the queue, and as the port, with none to all of its parameters held. */
static void first_commands(void)
{
    for (unsigned byte = 0; byte < 256; byte++) {
        int takes = parameters(byte);
        for (int held = 0; held <= (takes > 0 ? takes + 1 : 1); held++) {
            /* without a command none is held */
            int fits = takes < 0 ? held == 0 : held < takes;
            begin();
            stream->queue = byte;
            stream->count = (size_t)held;
            is_sound_if(fits, "first of the queue");
            stream->queue = 0xff730000 | byte;
            is_sound_if(fits, "first of the queue, no commands above");
            begin();
            stream->port = (uint8_t)byte;
            stream->count = (size_t)held;
            is_sound_if(byte == 0 ? held == 0 : held < takes, "port");
        }
        begin();
        stream->queue = takes < 0 ? 0 : byte;
        stream->count = SIZE_MAX;
        is_not_sound("count of parameters");
        stream->count = UINT64_C(1) << 32;
        is_not_sound("count of parameters");
    }
}

/* Every byte as a command behind the first; holes. */
static void queues(void)
{
    for (unsigned byte = 0; byte < 256; byte++) {
        int known = parameters(byte) >= 0;
        begin();
        stream->queue = 0x20 | byte << 8;
        is_sound("second of the queue");
        stream->queue = 0x1120 | byte << 16;
        is_sound("third of the queue");
        stream->queue = 0x411520 | byte << 24;
        is_sound("fourth of the queue");
        stream->queue = 0x1020 << 8 | byte;
        is_sound_if(known && parameters(byte) > 0, "hole below two");
        stream->queue = 0x100020 | byte << 8;
        is_sound_if(known, "hole between two");
        stream->queue = 0x10000020 | byte << 8;
        is_not_sound("hole below the last");
        stream->queue = 0x10001520 | byte << 16;
        is_sound_if(known, "hole below the fourth");
    }
    for (unsigned bits = 8; bits < 32; bits += 8) {
        begin();
        stream->queue = UINT32_C(0x20) << bits;
        is_not_sound("hole at the first");
    }
}

/* At most one of a queue, a dummy and a port command. */
static void begun(void)
{
    static const uint32_t queue[] = {0, 0xff730f00, 0x20, 0x41111520};
    static const uint8_t port[] = {0, 0x20, 0x34};
    for (size_t i = 0; i < COUNT(queue); i++)
        for (size_t k = 0; k < COUNT(port); k++)
            for (int dummy = 0; dummy < 2; dummy++) {
                begin();
                stream->queue = queue[i];
                stream->port = port[k];
                stream->dummy = dummy;
                is_sound_if((i >= 2) + (k >= 1) + dummy <= 1, "begun together");
            }
    begin();
    stream->dummy = true;
    stream->count = 1;
    is_not_sound("a parameter held before a dummy");
}

int main(void)
{
    begin();
    is_sound("an engine that C made");
    ranges();
    rooms();
    flags();
    waiting_vertices();
    first_commands();
    queues();
    begun();
    check(cases > 2000, "cases", "too few");
    return all_passed();
}
