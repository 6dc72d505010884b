/* Compares the structs of bindings/c/nauvelppi.h with the library's. Every member of the engine that probe_marks (of
 * crates/probe) answers has a mark of its own, which must be found under its name here, in every cell of an array; so
 * must it after a call of each entry that takes and hands back an engine. The other answers are compared by calls whose
 * members are known. Prints how many checks passed; a check that fails is a non-zero exit. */
#define PROGRAM "layout"
#include "check.h"

typedef struct marked {
    nauvelppi_engine engine;
    uint32_t after;
} marked;

marked probe_marks(void);

/* k in the lowest and in the highest byte. */
static int64_t mark(size_t size, int64_t k)
{
    return ((INT64_C(1) << 8 * (size - 1)) + (size > 1)) * k;
}

static size_t bytes_read;

static void cell(const char *name, const char *member, int64_t number, int64_t expected)
{
    check(number == expected, name, member);
}

/* One number, signed with minus its mark, and an array of them. */
#define NUMBER(member, k) \
    (bytes_read += sizeof e->member, cell(name, #member, (int64_t)e->member, mark(sizeof e->member, k)))
#define NUMBERS(member, k) \
    for (size_t i = 0; i < COUNT(e->member); i++) \
    NUMBER(member[i], k)
/* As a byte: a bool that is neither 0 nor 1 cannot be read. */
#define FLAG(member) (bytes_read += sizeof e->member, cell(name, #member, *(const uint8_t *)&e->member, 1))

/* The bytes between the members of an engine, and behind the last. */
enum { PADDING = 3 + 6 + 7 + 4 + 6 };

static void marks(const char *name, const nauvelppi_engine *engine)
{
    bytes_read = 0;
    {
        const nauvelppi_transform *e = &engine->core.registers.transform;
        NUMBERS(pair.position, -1);
        NUMBERS(pair.vector, -2);
        NUMBER(pair.level, 3);
        NUMBERS(projection.matrix, -4);
        NUMBERS(projection.slot, -5);
        NUMBER(projection.level, 6);
        NUMBERS(texture.matrix, -7);
        NUMBERS(texture.slot, -8);
        NUMBER(texture.level, 9);
        NUMBER(mode, 10);
        FLAG(error);
    }
    {
        const nauvelppi_geometry *e = &engine->core.registers.geometry;
        NUMBER(given, 11);
        NUMBER(attributes, 12);
        NUMBER(colour, 13);
        NUMBER(position.x, -14);
        NUMBER(position.y, -15);
        NUMBER(position.z, -16);
        NUMBER(waiting.list, 17);
        NUMBERS(waiting.first, -18);
        NUMBERS(waiting.second, -19);
        NUMBERS(waiting.third, -20);
        NUMBER(waiting.count, 21);
        NUMBER(used.vertices, 22);
        NUMBER(used.polygons, 23);
        NUMBER(rooms.vertices, 24);
        NUMBER(rooms.polygons, 25);
        FLAG(overflow);
    }
    {
        const nauvelppi_stacks *e = &engine->core.stacks;
        NUMBERS(positions, -26);
        NUMBERS(vectors, -27);
    }
    {
        const nauvelppi_stream *e = &engine->stream;
        NUMBER(queue, 28);
        NUMBERS(held, 29);
        NUMBER(count, 30);
        FLAG(dummy);
        NUMBER(port, 31);
    }
    check(bytes_read + PADDING == sizeof *engine, name, "a member is not read");
}

static int32_t vertices[5];
static uint32_t polygons[3];
/* Three words of no commands, and a hole. */
static const uint32_t words[] = {0, 0, 0, 0x00110015};

/* The marked engine is not sound: each call hands it back as it is, with number 1 and place 0. */
static void handed_back(const char *name, nauvelppi_engine_answer r)
{
    check(r.number == 1, name, "number");
    check(r.place == 0, name, "place");
    marks(name, &r.engine);
}

static void engine_answers(nauvelppi_engine e)
{
    handed_back("nauvelppi_word", nauvelppi_word(e, 0, vertices, 5, polygons, 3));
    handed_back("nauvelppi_port_write", nauvelppi_port_write(e, 0, 0, vertices, 5, polygons, 3));
    handed_back("nauvelppi_clear_error", nauvelppi_clear_error(e));
    handed_back("nauvelppi_clear_overflow", nauvelppi_clear_overflow(e));
    nauvelppi_list_answer w = nauvelppi_words(e, words, COUNT(words), vertices, 5, polygons, 3);
    check(w.number == 1, "nauvelppi_words", "number");
    check(w.place == 0, "nauvelppi_words", "place");
    check(w.taken == 0, "nauvelppi_words", "taken");
    marks("nauvelppi_words", &w.engine);
    nauvelppi_call_answer r = nauvelppi_word_in_place(&e, 0, vertices, 5, polygons, 3);
    check(r.number == 1, "nauvelppi_word_in_place", "number");
    check(r.place == 0, "nauvelppi_word_in_place", "place");
    marks("nauvelppi_word_in_place", &e);
}

/* Each member of the other answers with a value of its own: the number on a refusal, the rest where accepted. */
static void list_answers(void)
{
    /* 15h; then an address that is no port */
    static const uint8_t log[16] = {0x54, 4, 0, 4, 0, 0, 0, 0, 1};
    uint8_t output[64];
    nauvelppi_answer packed = nauvelppi_pack(log, 8, output, sizeof output);
    check(packed.number == 0 && packed.place == 0 && packed.length == 2, "nauvelppi_answer", "length");
    packed = nauvelppi_pack(log, 16, output, sizeof output);
    check(packed.number == 5 && packed.place == 1 && packed.length == 0, "nauvelppi_answer", "number or place");

    nauvelppi_engine e = nauvelppi_start(1, 1).engine;
    nauvelppi_list_answer w = nauvelppi_words(e, words, 3, vertices, 5, polygons, 3);
    check(w.number == 0 && w.place == 0 && w.taken == 3, "nauvelppi_list_answer", "taken");
    w = nauvelppi_words(e, words + 1, 3, vertices, 5, polygons, 3);
    check(w.number == 3 && w.place == 2 && w.taken == 2, "nauvelppi_list_answer", "number or place");
}

static void read_answers(nauvelppi_engine not_sound)
{
    nauvelppi_engine e = nauvelppi_start(1, 1).engine;
    nauvelppi_transform *t = &e.core.registers.transform;
    t->pair.level = 31;
    t->error = true;
    e.core.registers.geometry.overflow = true;
    for (int i = 0; i < 16; i++) {
        t->pair.position[i] = 100 + i;
        t->pair.vector[i] = -100 - i;
    }

    nauvelppi_status_answer s = nauvelppi_status(e);
    check(s.number == 0 && s.place == 0 && s.status == 0x9f00, "nauvelppi_status_answer", "status");
    s = nauvelppi_status(not_sound);
    check(s.number == 1 && s.place == 0 && s.status == 0, "nauvelppi_status_answer", "number");

    nauvelppi_matrix_answer m = nauvelppi_clip_matrix(e);
    check(m.number == 0 && m.place == 0, "nauvelppi_matrix_answer", "number");
    for (int i = 0; i < 16; i++)
        check(m.matrix[i] == 100 + i, "nauvelppi_matrix_answer", "matrix");
    m = nauvelppi_clip_matrix(not_sound);
    check(m.number == 1 && m.place == 0 && m.matrix[0] == 0, "nauvelppi_matrix_answer", "number");

    nauvelppi_corner_answer c = nauvelppi_vector_matrix(e);
    check(c.number == 0 && c.place == 0, "nauvelppi_corner_answer", "number");
    for (int i = 0; i < 9; i++)
        check(c.corner[i] == -100 - (i + i / 3), "nauvelppi_corner_answer", "corner");
    c = nauvelppi_vector_matrix(not_sound);
    check(c.number == 1 && c.place == 0 && c.corner[0] == 0, "nauvelppi_corner_answer", "number");

    nauvelppi_flag_answer f = nauvelppi_overflow(e);
    check(f.number == 0 && f.place == 0 && f.flag, "nauvelppi_flag_answer", "flag");
    f = nauvelppi_overflow(not_sound);
    check(f.number == 1 && f.place == 0 && !f.flag, "nauvelppi_flag_answer", "number");
}

int main(void)
{
    marked m = probe_marks();
    marks("nauvelppi_engine", &m.engine);
    check(m.after == mark(sizeof m.after, 32), "nauvelppi_engine", "another size");
    engine_answers(m.engine);
    list_answers();
    read_answers(m.engine);
    return all_passed();
}
