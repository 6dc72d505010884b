/* Calls nauvelppi_words of bindings/c/nauvelppi.h: the list of sample.h in one call, in two and with holes, lists of
 * other lengths, and the refusals before the first word. Each call is compared with the same words given to
 * nauvelppi_word one by one; its number, place and count stand here too. Prints how many checks passed; a check that
 * fails is a non-zero exit. */
#define PROGRAM "whole"
#include "sample.h"

enum { HOLE = 0x00110015 };

/* The words one by one until one is refused, with the buffers that are kept. */
static nauvelppi_list_answer singly(const nauvelppi_engine *e, const uint32_t *words, size_t count,
                                    size_t vertices_length, size_t polygons_length)
{
    nauvelppi_list_answer s = {0, 0, 0, *e};
    while (s.number == 0 && s.taken < count) {
        nauvelppi_engine_answer r = nauvelppi_word(s.engine, words[s.taken], vertices_before, vertices_length,
                                                   polygons_before, polygons_length);
        s.engine = r.engine;
        s.number = r.number;
        if (r.number == 0)
            s.taken++;
        else
            s.place = s.taken;
    }
    return s;
}

/* The words in one call, and one by one with buffers that hold the same: both leave the same engine and buffers. As
 * many as `taken` says are taken, and the next is refused unless the number is 0. Where a refused call took none, every
 * number of the engine is as it was; else free numbers can differ. */
static void feed_lent(const char *name, nauvelppi_engine *e, const uint32_t *words, size_t count,
                      size_t vertices_length, size_t polygons_length, uint32_t number, size_t taken)
{
    nauvelppi_engine given = *e;
    keep_buffers();
    nauvelppi_list_answer s = singly(e, words, count, vertices_length, polygons_length);
    nauvelppi_list_answer r =
        nauvelppi_words(*e, words, count, vertices, vertices_length, polygons, polygons_length);
    check(same_cells(e, &given), name, "the engine that was passed by value is changed");
    check(r.number == number, name, "another number");
    check(r.place == (number != 0 ? taken : 0), name, "another place");
    check(r.taken == taken, name, "another count of words taken");
    /* no single word tells of 1 and 2 where there is none */
    check(count == 0 || s.number == r.number, name, "another number than word by word");
    check(s.place == r.place && s.taken == r.taken, name, "another place than word by word");
    if (number != 0 && taken == 0)
        check(same_cells(&r.engine, &given), name, "the engine is changed");
    else
        check(same_meaning(&r.engine, &s.engine), name, "another engine than word by word");
    check(same_vertices(), name, "other vertices than word by word");
    check(same_polygons(), name, "other polygons than word by word");
    *e = r.engine;
}

/* The same with all of the buffers. */
static void feed(const char *name, nauvelppi_engine *e, const uint32_t *words, size_t count, uint32_t number,
                 size_t taken)
{
    feed_lent(name, e, words, count, VERTEX_NUMBERS, POLYGON_NUMBERS, number, taken);
}

/* An engine and buffers on which nothing was called yet. */
static nauvelppi_engine begin(void)
{
    nauvelppi_engine e = nauvelppi_start(VERTICES, POLYGONS).engine;
    fill_free(&e);
    fill_buffers();
    return e;
}

/* ---- The list */

static void pieces(void)
{
    nauvelppi_engine whole = begin();
    feed("list", &whole, list, COUNT(list), 0, 36);
    ended("list", &whole);
    for (size_t first = 0; first <= COUNT(list); first++) {
        nauvelppi_engine e = begin();
        feed("first piece", &e, list, first, 0, first);
        fill_free(&e);
        feed("second piece", &e, list + first, COUNT(list) - first, 0, COUNT(list) - first);
        check(same_meaning(&e, &whole), "two pieces", "another engine than in one");
        ended("two pieces", &e);
    }
}

/* The list twice: in the second round there is no room for a polygon. */
static void no_room(void)
{
    uint32_t twice[2 * COUNT(list)];
    memcpy(twice, list, sizeof list);
    memcpy(twice + COUNT(list), list, sizeof list);
    nauvelppi_engine e = begin();
    feed("list twice", &e, twice, COUNT(twice), 0, 72);
    check(e.core.registers.geometry.overflow, "list twice", "no overflow");
    buffers_hold("list twice", VERTICES, POLYGONS);
}

/* Where the list has its command words, and one behind its end; what is stored then. */
static const struct {
    size_t place, vertices, polygons;
} command_words[] = {{0, 0, 0}, {9, 0, 0}, {15, 0, 0}, {21, 0, 0}, {26, 6, 2}, {31, 6, 2}, {36, 10, 3}};

/* A hole at each place of the list: refused with 3 where a command word is due, else a parameter or a dummy as any
 * other. The refused word and those behind it, without the hole, then end the list. */
static void holes(uint32_t hole)
{
    uint32_t words[COUNT(list) + 1] = {0};
    memcpy(words, list, sizeof list);
    size_t next = 0;
    for (size_t place = 0; place < COUNT(words); place++) {
        uint32_t good = words[place];
        nauvelppi_engine e = begin();
        words[place] = hole;
        if (place != command_words[next].place) {
            feed("a hole as a parameter", &e, words, COUNT(words), 0, 37);
        } else {
            feed("a hole", &e, words, COUNT(words), 3, place);
            buffers_hold("a hole", command_words[next].vertices, command_words[next].polygons);
            feed("the hole again", &e, words + place, COUNT(words) - place, 3, 0);
            words[place] = good;
            feed("behind a hole", &e, words + place, COUNT(words) - place, 0, COUNT(words) - place);
            ended("behind a hole", &e);
            next++;
        }
        words[place] = good;
    }
    check(next == COUNT(command_words), "holes", "too few");
}

/* ---- Other lists */

/* Longer than the packer's lists; places that are more than 16 bits. */
static void long_lists(void)
{
    static uint32_t zeros[8194], colours[70001];
    nauvelppi_engine e = begin();
    feed("8,193 words of 0", &e, zeros, 8193, 0, 8193);
    zeros[8193] = HOLE;
    feed("8,193 words of 0, a hole", &e, zeros, 8194, 3, 8193);
    for (uint32_t i = 0; i < 70000; i += 2) {
        colours[i] = 0x00000020;
        colours[i + 1] = i / 2;
    }
    colours[70000] = HOLE;
    feed("70,000 words, a hole", &e, colours, 70001, 3, 70000);
    check(e.core.registers.geometry.colour == 34999 - 32768, "70,000 words, a hole", "another colour");
    buffers_hold("long lists", 0, 0);
}

static void short_lists(void)
{
    static const uint32_t one_before[] = {0, HOLE}, unknown[] = {0x99999999, 0x00001099};
    nauvelppi_engine e = begin();
    feed("0, a hole", &e, one_before, 2, 3, 1);
    feed("no command, an unknown byte below one", &e, unknown, 2, 3, 1);
    feed("no words", &e, one_before, 0, 0, 0);
    buffers_hold("short lists", 0, 0);
}

/* ---- Refused before the first word */

/* Refused with 1 or 2: also an empty list, and before anything that a word is refused with. */
static void refused(const char *name, const nauvelppi_engine *e, size_t vertices_length, size_t polygons_length,
                    uint32_t number)
{
    static const uint32_t good[] = {0x00000020, 5}, bad[] = {HOLE};
    nauvelppi_engine own = *e;
    feed_lent(name, &own, good, 0, vertices_length, polygons_length, number, 0);
    feed_lent(name, &own, good, 2, vertices_length, polygons_length, number, 0);
    feed_lent(name, &own, bad, 1, vertices_length, polygons_length, number, 0);
    check(same_cells(&own, e), name, "the engine is changed");
}

static void not_sound_or_short(const char *name, const nauvelppi_engine *sound)
{
    nauvelppi_engine not_sound = *sound;
    not_sound.core.registers.transform.mode = 4;
    refused(name, &not_sound, VERTEX_NUMBERS, POLYGON_NUMBERS, 1);
    refused(name, &not_sound, 0, 0, 1);
    refused(name, sound, 5 * VERTICES - 1, 3 * POLYGONS, 2);
    refused(name, sound, 5 * VERTICES, 3 * POLYGONS - 1, 2);
    refused(name, sound, 0, 0, 2);
}

/* No words, and buffers just long enough. */
static void no_words(const char *name, const nauvelppi_engine *sound)
{
    nauvelppi_engine e = *sound;
    feed_lent(name, &e, list, 0, 5 * VERTICES, 3 * POLYGONS, 0, 0);
    check(same_meaning(&e, sound), name, "the engine is changed by no words");
}

static void refusals(void)
{
    static const uint32_t begins[] = {0x00000023, 0x11112222}, ends[] = {HOLE, HOLE}, without[] = {0x00000015};
    nauvelppi_engine none = begin();
    feed("before the refusals", &none, list, STRIP_ENDED, 0, 26);
    fill_free(&none);
    nauvelppi_engine packed = none, dummy = none, port = none;
    feed("a packed word begun", &packed, begins, 2, 0, 2);
    feed("a dummy due", &dummy, without, 1, 0, 1);
    take_write("a port command begun", &port, PORT(0x23), 0x33334444);

    const char *const names[] = {"none begun", "a packed word begun", "a dummy due", "a port command begun"};
    nauvelppi_engine *const engines[] = {&none, &packed, &dummy, &port};
    for (size_t i = 0; i < COUNT(engines); i++) {
        fill_free(engines[i]);
        not_sound_or_short(names[i], engines[i]);
        no_words(names[i], engines[i]);
    }
    feed("4, a port command", &port, begins, 2, 4, 0);
    feed("4 before 3", &port, ends, 2, 4, 0);
    /* what was begun goes on: the first is a parameter or the dummy */
    feed("a packed word ended, a hole", &packed, ends, 2, 3, 1);
    check(packed.core.registers.geometry.position.z == 0x15, "a packed word ended, a hole", "another Z");
    feed("a dummy, a hole", &dummy, ends, 2, 3, 1);
    take_write("a port command ended", &port, PORT(0x23), 0x5555);
    none_begun("a port command ended", &port);
}

int main(void)
{
    pieces();
    no_room();
    holes(HOLE);
    holes(0x00001099);
    long_lists();
    short_lists();
    refusals();
    return all_passed();
}
