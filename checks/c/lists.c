/* Calls packer and unpacker of bindings/c/nauvelppi.h on good and bad input, and compares each answer, and every byte
 * of the output, with what they must be. Prints how many checks passed; a check that fails is a non-zero exit. */
#define PROGRAM "lists"
#include "check.h"

enum { LONGEST_LIST = 8192, LONGEST_LOG = 32768, ROOM = 4 * LONGEST_LOG + 64 };

typedef nauvelppi_answer call(const uint8_t *, size_t, uint8_t *, size_t);

static void put_words(uint8_t *bytes, const uint32_t *words, size_t count)
{
    for (size_t i = 0; i < count; i++)
        for (int k = 0; k < 4; k++)
            bytes[4 * i + k] = (uint8_t)(words[i] >> 8 * k);
}

/* A call on bytes, with an output of `size` bytes: the answer, and the words that the output must hold from its first
 * byte on, none on a refusal; each byte past them is the one that was there before. Both buffers begin at an odd
 * address. */
static void on_bytes(const char *name, call *made, const uint8_t *input, size_t input_size, size_t size,
                     uint32_t number, uint32_t place, const uint32_t *words, uint32_t count)
{
    static uint8_t given[ROOM], output[ROOM], expected[ROOM];
    uint8_t *in = given + 1, *out = output + 1;

    memcpy(in, input, input_size);
    for (size_t i = 0; i < ROOM; i++)
        output[i] = expected[i] = (uint8_t)(37 * i + 11);
    put_words(expected + 1, words, count);

    nauvelppi_answer r = made(in, input_size, out, size);
    check(r.number == number, name, "another number");
    check(r.place == place, name, "another place");
    check(r.length == count, name, "another length");
    check(memcmp(output, expected, ROOM) == 0, name, "another output");
    check(memcmp(in, input, input_size) == 0, name, "the input is changed");
}

static uint8_t bytes[ROOM];

/* The same, the input given as words and the output's size in words. */
static void on_words(const char *name, call *made, const uint32_t *input, size_t input_count, size_t capacity,
                     uint32_t number, uint32_t place, const uint32_t *words, uint32_t count)
{
    put_words(bytes, input, input_count);
    on_bytes(name, made, bytes, 4 * input_count, 4 * capacity, number, place, words, count);
}

static void refused(const char *name, call *made, const uint32_t *input, size_t input_count, size_t capacity,
                    uint32_t number, uint32_t place)
{
    on_words(name, made, input, input_count, capacity, number, place, NULL, 0);
}

static uint32_t many[LONGEST_LOG], made_of_many[LONGEST_LOG];

static void unpack_checks(void)
{
    static const uint32_t sample[] = {0x00001510, 2, 0};
    static const uint32_t pairs[] = {PORT(0x10), 2, PORT(0x15), 0};
    on_words("unpack", nauvelppi_unpack, sample, 3, 6, 0, 0, pairs, 4);
    on_words("unpack, output just long enough", nauvelppi_unpack, sample, 3, 4, 0, 0, pairs, 4);
    on_words("unpack no words", nauvelppi_unpack, sample, 0, 6, 0, 0, NULL, 0);
    on_words("unpack no words into none", nauvelppi_unpack, sample, 0, 0, 0, 0, NULL, 0);

    static const uint32_t empty_words[] = {0, 0x99000010, 7, 0x9f9f9f9f};
    static const uint32_t one_pair[] = {PORT(0x10), 7};
    on_words("unpack words of no commands", nauvelppi_unpack, empty_words, 4, 2, 0, 0, one_pair, 2);

    for (size_t rest = 1; rest < 4; rest++) {
        put_words(bytes, sample, 3);
        on_bytes("unpack, list not whole words", nauvelppi_unpack, bytes, 8 + rest, 24, 7, 0, NULL, 0);
        on_bytes("unpack, output not whole words", nauvelppi_unpack, bytes, 12, 16 + rest, 7, 0, NULL, 0);
        on_bytes("unpack, output not whole words and too short", nauvelppi_unpack, bytes, 12, rest, 7, 0, NULL, 0);
    }

    static const uint32_t holes[] = {0x00001510, 2, 0, 0x00110015};
    static const uint32_t unknown_below[] = {0x00001099, 5};
    refused("unpack, hole", nauvelppi_unpack, holes + 3, 1, 6, 3, 0);
    refused("unpack, hole behind a command", nauvelppi_unpack, holes, 4, 6, 3, 3);
    refused("unpack, unknown byte below a command", nauvelppi_unpack, unknown_below, 2, 6, 3, 0);
    refused("unpack, hole before 10", nauvelppi_unpack, holes, 4, 0, 3, 3);
    put_words(bytes, holes, 4);
    on_bytes("unpack, 7 before a hole", nauvelppi_unpack, bytes, 16, 23, 7, 0, NULL, 0);

    static const uint32_t unfinished[] = {0x00000010, 1, 0x00000016, 1, 2, 3};
    refused("unpack, no dummy", nauvelppi_unpack, sample, 2, 6, 8, 0);
    refused("unpack, unfinished command", nauvelppi_unpack, unfinished, 6, 6, 8, 2);
    refused("unpack, 8 before 10", nauvelppi_unpack, unfinished, 6, 0, 8, 2);

    refused("unpack, output one word too short", nauvelppi_unpack, sample, 3, 3, 10, 0);
    refused("unpack, no output", nauvelppi_unpack, sample, 3, 0, 10, 0);

    /* four commands without parameters and a dummy, to the longest list and the longest log */
    for (size_t i = 0; i < LONGEST_LIST; i += 2) {
        many[i] = 0x15151515;
        many[i + 1] = (uint32_t)i;
    }
    many[LONGEST_LIST] = 0;
    for (size_t i = 0; i < LONGEST_LOG; i += 2) {
        made_of_many[i] = PORT(0x15);
        made_of_many[i + 1] = 0;
    }
    on_words("unpack to the longest log", nauvelppi_unpack, many, LONGEST_LIST, LONGEST_LOG, 0, 0, made_of_many,
             LONGEST_LOG);
    on_words("unpack to the longest log, longer output", nauvelppi_unpack, many, LONGEST_LIST, LONGEST_LOG + 8, 0, 0,
             made_of_many, LONGEST_LOG);
    refused("unpack to the longest log, short output", nauvelppi_unpack, many, LONGEST_LIST, LONGEST_LOG - 1, 10, 0);
    refused("unpack, list too long", nauvelppi_unpack, many, LONGEST_LIST + 1, LONGEST_LOG, 7, 0);
}

static void pack_checks(void)
{
    static const uint32_t log[] = {PORT(0x10), 2, PORT(0x15), 7};
    static const uint32_t list[] = {0x00001510, 2, 0};
    on_words("pack", nauvelppi_pack, log, 4, 5, 0, 0, list, 3);
    on_words("pack, output just long enough", nauvelppi_pack, log, 4, 3, 0, 0, list, 3);
    /* document 01, row 12: "Empty log packs to no words" */
    on_words("pack no writes", nauvelppi_pack, log, 0, 5, 0, 0, NULL, 0);
    on_words("pack no writes into none", nauvelppi_pack, log, 0, 0, 0, 0, NULL, 0);

    for (size_t rest = 1; rest < 4; rest++) {
        put_words(bytes, log, 4);
        on_bytes("pack, log not whole words", nauvelppi_pack, bytes, 12 + rest, 20, 7, 0, NULL, 0);
        on_bytes("pack, output not whole words", nauvelppi_pack, bytes, 16, 12 + rest, 7, 0, NULL, 0);
        on_bytes("pack, output not whole words and too short", nauvelppi_pack, bytes, 16, rest, 7, 0, NULL, 0);
    }
    refused("pack, log of odd length", nauvelppi_pack, log, 3, 5, 7, 0);

    static const uint32_t no_port[] = {PORT(0x10), 2, PORT(0x73), 0, PORT(0x15), 0};
    static const uint32_t between_ports[] = {PORT(0x10) + 1, 2};
    refused("pack, no known command's port", nauvelppi_pack, no_port, 6, 5, 5, 1);
    refused("pack, address between ports", nauvelppi_pack, between_ports, 2, 5, 5, 0);
    refused("pack, 5 before 10", nauvelppi_pack, no_port, 6, 0, 5, 1);
    put_words(bytes, no_port, 6);
    on_bytes("pack, 7 before 5", nauvelppi_pack, bytes, 24, 19, 7, 0, NULL, 0);

    static const uint32_t other_port[] = {PORT(0x15), 0, PORT(0x23), 1, PORT(0x24), 2};
    static const uint32_t no_port_in_a_command[] = {PORT(0x23), 1, PORT(0x73), 2};
    refused("pack, another port", nauvelppi_pack, other_port, 6, 5, 6, 2);
    refused("pack, 5 before 6", nauvelppi_pack, no_port_in_a_command, 4, 5, 5, 1);

    static const uint32_t unfinished[] = {PORT(0x15), 0, PORT(0x1c), 1, PORT(0x1c), 2};
    refused("pack, unfinished command", nauvelppi_pack, unfinished, 6, 5, 8, 1);
    refused("pack, 8 before 10", nauvelppi_pack, unfinished, 6, 0, 8, 1);

    refused("pack, output one word too short", nauvelppi_pack, log, 4, 2, 10, 0);
    refused("pack, no output", nauvelppi_pack, log, 4, 0, 10, 0);

    /* commands of one parameter, to the longest log: each four are a command word and four parameters */
    size_t count = 0;
    for (size_t i = 0; i < LONGEST_LIST; i += 2) {
        many[i] = PORT(0x20);
        many[i + 1] = (uint32_t)i;
        if (i % 8 == 0)
            made_of_many[count++] = 0x20202020;
        made_of_many[count++] = (uint32_t)i;
    }
    many[LONGEST_LIST] = PORT(0x20);
    many[LONGEST_LIST + 1] = 0;
    on_words("pack the longest log", nauvelppi_pack, many, LONGEST_LIST, count, 0, 0, made_of_many, (uint32_t)count);
    on_words("pack the longest log, longest list", nauvelppi_pack, many, LONGEST_LIST, LONGEST_LIST, 0, 0, made_of_many,
             (uint32_t)count);
    on_words("pack the longest log, longer output", nauvelppi_pack, many, LONGEST_LIST, LONGEST_LIST + 8, 0, 0,
             made_of_many, (uint32_t)count);
    refused("pack the longest log, short output", nauvelppi_pack, many, LONGEST_LIST, count - 1, 10, 0);
    refused("pack, log too long", nauvelppi_pack, many, LONGEST_LIST + 2, LONGEST_LIST, 7, 0);
}

/* Commands of every number of parameters, one after another, from each of them on: the log, packed and unpacked, is the
 * log again, with 0 as the value of each write to a port without parameters. */
static void round_trips(void)
{
    static const uint8_t commands[][2] = {{0x10, 1}, {0x11, 0}, {0x15, 0}, {0x16, 16}, {0x17, 12},
                                          {0x1a, 9}, {0x1b, 3}, {0x41, 0}, {0x23, 2},  {0x34, 32},
                                          {0x40, 1}, {0x71, 2}, {0x41, 0}, {0x50, 1}};
    static uint8_t log[4 * LONGEST_LIST], list[4 * LONGEST_LIST], back[4 * LONGEST_LOG];
    for (size_t first = 0; first < COUNT(commands); first++) {
        size_t count = 0;
        for (size_t i = first; count + 64 <= LONGEST_LIST; i++) {
            const uint8_t *command = commands[i % COUNT(commands)];
            size_t writes = command[1] ? command[1] : 1;
            for (size_t k = 0; k < writes; k++) {
                many[count] = PORT(command[0]);
                many[count + 1] = command[1] ? (uint32_t)(2654435761u * count) : 0;
                count += 2;
            }
        }
        put_words(log, many, count);
        nauvelppi_answer packed = nauvelppi_pack(log, 4 * count, list, sizeof list);
        check(packed.number == 0 && packed.length > 0, "round trip", "a log is refused");
        nauvelppi_answer unpacked = nauvelppi_unpack(list, 4 * (size_t)packed.length, back, sizeof back);
        check(unpacked.number == 0 && unpacked.length == count, "round trip", "another length");
        check(memcmp(back, log, 4 * count) == 0, "round trip", "another log");
    }
}

int main(void)
{
    unpack_checks();
    pack_checks();
    round_trips();
    return all_passed();
}
