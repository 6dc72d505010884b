/* The packer, the unpacker and the engine for C, as crates/nauvelppi/src/lib.rt exports them. Link
 * target/staticlib/libnauvelppi.a, which `rt staticlib nauvelppi` builds. No proof speaks of this header;
 * checks/c/layout.c compares its structs with those of the library, member by member.
 *
 * Any bytes, any sizes and any engine are answered. Nothing checks these rules, which the caller keeps:
 * - No pointer is null, also where the size is 0.
 * - A pointer has at least as many readable bytes or numbers, for outputs and buffers writable ones, behind it as its
 *   size says, and all of them were written once; so was every member of an engine, also where it is free. A pointer to
 *   an engine has a writable one behind it. Numbers and engines are aligned as C has them.
 * - Nothing that a call is given overlaps anything else that it is given.
 * - No other thread writes to any of it, or reads an output, a buffer or the engine behind a pointer, during the call.
 * - A bool is 0 or 1, which is C's own rule for it.
 * - The stack has 256 KiB to spare.
 */
#ifndef NAUVELPPI_H
#define NAUVELPPI_H

#include <stdbool.h>
#include <stddef.h>
#include <stdint.h>

#ifdef __cplusplus
extern "C" {
#endif

/* ---- Packer and unpacker
 *
 * A list is a packed display list, words of 32 bits. A log is a list of port writes, two words each: address, value.
 * Both calls take and give them as bytes, little-endian words, at any address. All sizes are in bytes.
 *
 * number: 0 where the call was accepted, else why it was refused. Where more than one falls, the order is that of the
 * functions' comments below.
 *    3  hole in a command word: a byte that is no command below one that is
 *    5  address is no known command's port
 *    6  another port than the one begun
 *    7  input or output not whole words; log of odd length (in words); list or log over 8,192 words
 *    8  log or list ends inside a command, or before its dummy
 *    9  packed list would pass 8,192 words (a log of at most 8,192 words never has so many)
 *   10  output shorter than needed
 * place: counted from 0; for 3 the word, for 5 and 6 the port write, for 8 the port write or the command word that
 *   begins what is unfinished; else 0.
 * length: how many words (not bytes) the output now holds from its first byte on; 0 on a refusal.
 *
 * An accepted call writes the first 4 * length bytes of the output and leaves those past them as they were. A refused
 * call leaves the whole output as it was. */
typedef struct nauvelppi_answer {
    uint32_t number;
    uint32_t place;
    uint32_t length;
} nauvelppi_answer;

/* Packs a log to a list: 7, then the first bad port write (5 before 6), 8, 9, 10. An output of 8,192 words is always
 * long enough. */
nauvelppi_answer nauvelppi_pack(const uint8_t *log, size_t log_size, uint8_t *output, size_t output_size);

/* Unpacks a list to a log, value 0 for commands without parameters: 7, then the first of 3 and 8, 10. An output of
 * 32,768 words, 16,384 port writes, is always long enough. */
nauvelppi_answer nauvelppi_unpack(const uint8_t *list, size_t list_size, uint8_t *output, size_t output_size);

/* ---- The engine
 *
 * The engine is a plain record, which the caller keeps, copies, reads and makes as it likes. Most calls take it by
 * value and answer with the engine after the call; nauvelppi_word_in_place works on the caller's own.
 *
 * Sound: every call but a start tests first whether the engine is sound, and refuses it with 1 if it is not. An engine
 * is sound if each member keeps the range and the rules that its struct's comment gives. A member for which none is
 * given can have every value of its type. Nothing more is tested. The engine that a start answers is sound, and so is
 * the engine after a call that does not refuse with 1.
 *
 * Free: no call looks at it, and it can differ after a call that is accepted or took a word. */

/* Position and vector: the current matrices, and the level that their two stacks share. A matrix is sixteen numbers,
 * row by row, 12 fraction bits: 4096 is 1.0.
 * level: 0 to 63; its slot is level % 32. A push stores there and then adds 1; a pop subtracts its number and then
 *   loads from there; both count modulo 64. */
typedef struct nauvelppi_pair {
    int32_t position[16];
    int32_t vector[16];
    size_t level;
} nauvelppi_pair;

/* Projection or texture: the current matrix, and its stack of one slot.
 * level: 0 or 1. A push or a pop flips it. */
typedef struct nauvelppi_single {
    int32_t matrix[16];
    int32_t slot[16];
    size_t level;
} nauvelppi_single;

/* mode: what 10h set, 0 to 3: projection, position, position and vector, texture.
 * error: the error flag of the stacks, 0 or 1. Set in modes 1 and 2 by a push at level 31 or more, a pop to such a
 *   level, a store or restore with 31; in modes 0 and 3 by a push at 1 or a pop at 0. What sets it is done all the
 *   same. */
typedef struct nauvelppi_transform {
    nauvelppi_pair pair;
    nauvelppi_single projection;
    nauvelppi_single texture;
    uint32_t mode;
    bool error;
} nauvelppi_transform;

/* The vertex position, 12 fraction bits. */
typedef struct nauvelppi_coordinates {
    int16_t x;
    int16_t y;
    int16_t z;
} nauvelppi_coordinates;

/* The open list, and the vertices that wait for its next polygon. A vertex is five numbers: X, Y, Z, W, colour.
 * list: 0 to 5, the list that 40h opened.
 *    0  closed
 *    1  triangles
 *    2  quads
 *    3  triangle strip whose next k is even
 *    4  triangle strip whose next k is odd
 *    5  quad strip
 * first, second, third: as many of them wait as `count` says, in this order. The colour of one that waits is 0 to
 *   32,767. Those past the count are free.
 * count: fewer than a polygon of the list takes, none in a closed list: 0 for list 0; 0 to 2 for lists 1, 3 and 4;
 *   0 to 3 for lists 2 and 5. */
typedef struct nauvelppi_waiting {
    uint32_t list;
    int32_t first[5];
    int32_t second[5];
    int32_t third[5];
    size_t count;
} nauvelppi_waiting;

typedef struct nauvelppi_counts {
    size_t vertices;
    size_t polygons;
} nauvelppi_counts;

/* given: the attributes last given by 29h.
 * attributes: those in force.
 * colour: what 20h set, 0 to 32,767.
 * used: how many vertices and polygons the buffers hold, each 0 to its room.
 * rooms: how many they may hold, 1 to 6,144 vertices and 1 to 2,048 polygons.
 * overflow: a polygon was dropped, 0 or 1. */
typedef struct nauvelppi_geometry {
    uint32_t given;
    uint32_t attributes;
    uint32_t colour;
    nauvelppi_coordinates position;
    nauvelppi_waiting waiting;
    nauvelppi_counts used;
    nauvelppi_counts rooms;
    bool overflow;
} nauvelppi_geometry;

typedef struct nauvelppi_registers {
    nauvelppi_transform transform;
    nauvelppi_geometry geometry;
} nauvelppi_registers;

/* The stacks of position and vector, 32 slots each: slot k is the sixteen numbers from 16 * k on. */
typedef struct nauvelppi_stacks {
    int32_t positions[512];
    int32_t vectors[512];
} nauvelppi_stacks;

typedef struct nauvelppi_core {
    nauvelppi_registers registers;
    nauvelppi_stacks stacks;
} nauvelppi_core;

/* The command stream between two calls. At most one of these is begun: the commands of a packed word, its dummy, a port
 * command. By how many parameters they take, the commands are these bytes, in hexadecimal, and no others:
 *    0  11, 15, 41
 *    1  10, 12, 13, 14, 20, 21, 22, 24 to 2B, 30 to 33, 40, 50, 60, 72
 *    2  23, 71
 *    3  1B, 1C, 70
 *    9  1A
 *   12  17, 19
 *   16  16, 18
 *   32  34
 *
 * queue: the rest of the packed command word, its next command the lowest byte. No hole: no byte that is no command is
 *   below one that is. The bytes above the last command, all four where there is none, are free among those that are
 *   no command, such as 0.
 * held: the parameters so far of the next command of the queue or, with none in the queue, of the port command. Those
 *   past the count are free.
 * count: how many are held: fewer than that command takes, and 0 where there is no such command. So the next command of
 *   the queue takes parameters.
 * dummy: the dummy word is due, 0 or 1; 0 where a command is in the queue.
 * port: the port command begun, a command that takes parameters, or 0 for none; 0 where a command is in the queue or
 *   the dummy is due. */
typedef struct nauvelppi_stream {
    uint32_t queue;
    uint32_t held[32];
    size_t count;
    bool dummy;
    uint8_t port;
} nauvelppi_stream;

typedef struct nauvelppi_engine {
    nauvelppi_core core;
    nauvelppi_stream stream;
} nauvelppi_engine;

/* number: 0 where the call was accepted, else why it was refused. Where more than one falls, the order is that of the
 * functions' comments below.
 *    1  engine not sound
 *    2  a buffer is shorter than its room: 5 numbers for each vertex, 3 for each polygon
 *    3  hole in a command word: a byte that is no command below one that is
 *    4  port write with a packed word unfinished, or packed word with a port command unfinished
 *    5  address is no known command's port
 *    6  another port than the one begun
 *   11  room out of range
 * place: 0.
 * engine: the engine after the call. A refused call hands back the engine that it was given, every number and flag of
 *   it, also the free ones, and leaves both buffers as they were. Padding between the members is not kept: compare
 *   members. */
typedef struct nauvelppi_engine_answer {
    uint32_t number;
    uint32_t place;
    nauvelppi_engine engine;
} nauvelppi_engine_answer;

/* The fresh engine with these rooms, 1 to 6,144 vertices and 1 to 2,048 polygons: 11, and then it is the fresh engine
 * with rooms 1 and 1. */
nauvelppi_engine_answer nauvelppi_start(size_t vertices, size_t polygons);

/* One packed word, a command word, a parameter or a dummy: 1, 2, 4, 3 (3 only where a command word is due).
 *
 * The caller lends the same two buffers from call to call, and can read them between two calls. From the first number
 * on they hold as many vertices and polygons as `used` says: five numbers for a vertex (X, Y, Z, W, colour), three for
 * a polygon (first vertex, 3 or 4, attributes). The numbers past those stay as they were until a polygon is stored
 * there. Lengths are in numbers: at least 5 for each vertex of the room and 3 for each polygon. */
nauvelppi_engine_answer nauvelppi_word(nauvelppi_engine engine, uint32_t word, int32_t *vertices,
                                       size_t vertices_length, uint32_t *polygons, size_t polygons_length);

/* One port write: 1, 2, 5, 4, 6. The buffers are those of nauvelppi_word. */
nauvelppi_engine_answer nauvelppi_port_write(nauvelppi_engine engine, uint32_t address, uint32_t value,
                                             int32_t *vertices, size_t vertices_length, uint32_t *polygons,
                                             size_t polygons_length);

/* What the entry on the caller's own engine answers: number and place as above. */
typedef struct nauvelppi_call_answer {
    uint32_t number;
    uint32_t place;
} nauvelppi_call_answer;

/* nauvelppi_word on the caller's own engine, which becomes the engine after the call: 1, 2, 4, 3. A refused call leaves
 * every number and flag of it, and both buffers, as they were. */
nauvelppi_call_answer nauvelppi_word_in_place(nauvelppi_engine *engine, uint32_t word, int32_t *vertices,
                                              size_t vertices_length, uint32_t *polygons, size_t polygons_length);

/* What the entry for whole lists answers: number as above.
 * place: the refused word, counted from 0; 0 where none is refused, and for 1 and 2.
 * taken: how many words were taken, on a refusal too, where it is equal to the place; `count` where none is refused.
 * engine: as the words taken left it, and so are both buffers. A refused call that took none hands back the engine and
 *   leaves the buffers as nauvelppi_word does. */
typedef struct nauvelppi_list_answer {
    uint32_t number;
    size_t place;
    size_t taken;
    nauvelppi_engine engine;
} nauvelppi_list_answer;

/* Packed words, one after another as by nauvelppi_word, up to the first that is refused: 1 and 2, tested before the
 * first word and for an empty list too; then for each word 4, 3. An empty list is accepted whatever is begun. A list
 * can begin and end inside a command, and have more than 8,192 words.
 *
 * Words are numbers in the machine's own byte order, not little-endian bytes as for packer and unpacker; `count` is how
 * many. The buffers are those of nauvelppi_word. */
nauvelppi_list_answer nauvelppi_words(nauvelppi_engine engine, const uint32_t *words, size_t count, int32_t *vertices,
                                      size_t vertices_length, uint32_t *polygons, size_t polygons_length);

/* ---- What is read and cleared between calls
 *
 * Also while a command is begun. These refuse with 1 only. number and place are those of nauvelppi_engine_answer. */

/* status: 0 on a refusal. */
typedef struct nauvelppi_status_answer {
    uint32_t number;
    uint32_t place;
    uint32_t status;
} nauvelppi_status_answer;

/* The status word (GXSTAT): bits 8-12 the low five bits of the level of position and vector, bit 13 the projection
 * level, bit 15 the error flag, all other bits 0. */
nauvelppi_status_answer nauvelppi_status(nauvelppi_engine engine);

/* matrix: sixteen zeros on a refusal. */
typedef struct nauvelppi_matrix_answer {
    uint32_t number;
    uint32_t place;
    int32_t matrix[16];
} nauvelppi_matrix_answer;

/* The clip matrix (CLIPMTX_RESULT): position times projection. */
nauvelppi_matrix_answer nauvelppi_clip_matrix(nauvelppi_engine engine);

/* corner: three rows of three numbers; nine zeros on a refusal. */
typedef struct nauvelppi_corner_answer {
    uint32_t number;
    uint32_t place;
    int32_t corner[9];
} nauvelppi_corner_answer;

/* The 3x3 corner of the vector matrix (VECMTX_RESULT): the first three numbers of each of its first three rows. */
nauvelppi_corner_answer nauvelppi_vector_matrix(nauvelppi_engine engine);

/* flag: 0 on a refusal. */
typedef struct nauvelppi_flag_answer {
    uint32_t number;
    uint32_t place;
    bool flag;
} nauvelppi_flag_answer;

/* The overflow flag (DISP3DCNT bit 13). */
nauvelppi_flag_answer nauvelppi_overflow(nauvelppi_engine engine);

/* The engine with the error flag cleared and the projection level at 0, all else as it was. */
nauvelppi_engine_answer nauvelppi_clear_error(nauvelppi_engine engine);

/* The engine with the overflow flag cleared, all else as it was. */
nauvelppi_engine_answer nauvelppi_clear_overflow(nauvelppi_engine engine);

#ifdef __cplusplus
}
#endif

#endif
