/*
 * pilgonca.h: the C functions of the proved permission core. docs/SPEC.md has the rules that comments name (as H or B26), docs/GUIDE.md a page for
 * integrators.
 *
 * Linking. Link libpilgonca.a, which tools/install makes of all target/staticlib/libexport_*.a. It is for x86-64 Linux, and needs memcpy, memmove and
 * memset, and nothing else.
 *
 * Calling. A function returns 0, or the number of a refusal (enum pilgonca_refusal); pilgonca_compare alone differs. Any bytes, counts and numbers may be
 * handed in: what is wrong is refused. A refusal stores nothing, so that everything lent is as it was, every byte of it; pilgonca_read and pilgonca_load
 * alone store always (S32).
 *
 * Who asks. `subject` says on whose behalf a request is put. The firmware gives it, by what it knows itself of who is asking, and never takes it from the
 * module: the core believes it, so a module that chose the number could use every cell of the subject that it names. The words of a run and the lines of a
 * script name subjects too. All other operands of its requests a module may choose. docs/HOSTILE.md has what a hostile one can still do.
 *
 * Memory. The caller owns every array and lends it for the time of the call; no pointer is kept, there is no heap and no variable behind a call's end. So
 * calls from several threads are fine on arrays of their own. What a function cannot see is the caller's part:
 *   - a pointer is valid, also where its length is 0, and an array has at least the length in its brackets;
 *   - a slice passes as pointer and length (text, text_len), the length in elements;
 *   - arrays of one call do not overlap, but for two of which both are only read.
 *
 * Stack. Measured, not proved (docs/MEASURED.md): the deepest request takes 176 KB, a run 184; load 28, tiny 20, offers 8, doors 4. Give the thread 256 KB.
 */
#ifndef PILGONCA_H
#define PILGONCA_H

#include <stddef.h>
#include <stdint.h>

#ifdef __cplusplus
extern "C" {
#endif

/* The version of the whole: core, header, Rust package and desk. */
#define PILGONCA_VERSION "0.2.0"

/*
 * The version of a state's bytes, and of a saved state (docs/GUIDE.md). Version 2, in which each subject has its own count of calls (Q9), is a break:
 *   - The array of calls has 2,048 bytes, and had 1,024. The functions keep their names, so no linker finds what was compiled with an older header: it lends
 *     1,024 bytes, and the 1,024 behind them may be read and written too. pilgonca_load always writes 0 there, the others come there from the 257th call on.
 *     Compile anew whatever includes this header, and take lengths from here alone. (Then gcc 12 warns where it sees that an array lent is too short; clang
 *     14 does not.)
 *   - A state that was kept as bytes has 1,024 bytes of calls: they are the first of the 2,048, and 0 belongs behind them. Where a whole struct was kept, of
 *     18,720 bytes, its last 64 are the counts: these come behind the longer array, 1,024 bytes later than they stood.
 *   - Such a state is served unless a subject has made more than 32 calls in it: that is 2 now, in every function that takes a state (H17), and nothing
 *     makes it sound again. Begin a new one with the sheet.
 * Whoever counts on the bytes can be told of the next break: #if PILGONCA_STATE_VERSION != 2, and behind it an #error.
 */
#define PILGONCA_STATE_VERSION 2

/* Counts and lengths pass as size_t, and the library is made for one of 64 bits. Where it has fewer this does not compile, in C99 and C++ alike. */
typedef char pilgonca_needs_a_size_t_of_64_bits[sizeof(size_t) == 8 ? 1 : -1];

/*
 * Limits (T1 to T5, Q7 to Q9); PILGONCA_ARGUMENTS is the most arguments of a signature (T13). Categories are numbered from 1, since 0 is for none;
 * everything else from 0. A subject makes at most PILGONCA_CALLS_EACH calls, answered or not, and PILGONCA_CALLS are all that 16 of them can make. The next
 * call of that subject is 18 (C7), whatever others ask; a state handed in with more calls than that, of one caller or of all, is 2 (H1, H17).
 */
#define PILGONCA_SUBJECTS 16
#define PILGONCA_METHODS 16
#define PILGONCA_ARGUMENTS 4
#define PILGONCA_CATEGORIES 31
#define PILGONCA_SHEET_TYPES 48
#define PILGONCA_TYPES 128
#define PILGONCA_CELLS 256
#define PILGONCA_PLACES 128
#define PILGONCA_CALLS 512
#define PILGONCA_CALLS_EACH 32

/* Bytes of the arrays of a table or a state, and of a pair table. */
#define PILGONCA_TYPE_BYTES 16384
#define PILGONCA_LINK_BYTES 96
#define PILGONCA_CELL_BYTES 768
#define PILGONCA_PLACE_BYTES 384
#define PILGONCA_CALL_BYTES 2048
#define PILGONCA_PAIR_BYTES 2304

/* Counts of a table and of a state; values of a request; numbers that a run stores for each request (U8). */
#define PILGONCA_TABLE_COUNTS 5
#define PILGONCA_STATE_COUNTS 8
#define PILGONCA_VALUES 3
#define PILGONCA_ANSWER_WORDS 4

/* The longest input that pilgonca_script serves (P1), and a buffer that holds the output of every input (P18). */
#define PILGONCA_INPUT_BYTES 32768
#define PILGONCA_PRINTED_BYTES 32773

/* How many tiny sheets there are, and the bytes of all of them (P25). */
#define PILGONCA_TINY_SHEETS 130
#define PILGONCA_TINY_BYTES 13659

/* The most times of a list, the last time there is and the largest tolerance, both in milliseconds (V1), and the counts of pilgonca_doors (V6). */
#define PILGONCA_TIMES 1024
#define PILGONCA_LAST_TIME 4294967295
#define PILGONCA_TOLERANCE 60000
#define PILGONCA_DOOR_COUNTS 3

/*
 * What a function returns; pilgonca_refusal_text has the words. The last section of docs/SPEC.md says where each is met, docs/GUIDE.md what to do. Numbers
 * rise, and some are left out.
 */
enum pilgonca_refusal {
    PILGONCA_OK = 0,
    PILGONCA_FORM = 1,
    PILGONCA_OUT_OF_RANGE = 2,
    PILGONCA_NOT_BELOW = 3,
    PILGONCA_SHORT_BUFFER = 4,
    PILGONCA_UNKNOWN_SUBJECT = 5,
    PILGONCA_NOT_HELD = 6,
    PILGONCA_UNKNOWN_TYPE = 7,
    PILGONCA_UNRELATED = 8,
    PILGONCA_NOT_OWNER = 9,
    PILGONCA_NOT_STRICT = 10,
    PILGONCA_TYPES_FULL = 11,
    PILGONCA_PLACES_FULL = 12,
    PILGONCA_CELLS_FULL = 13,
    PILGONCA_NOT_CALLABLE = 14,
    PILGONCA_WRONG_VALUES = 15,
    PILGONCA_TOO_WIDE = 16,
    PILGONCA_ANSWERED_ALREADY = 17,
    PILGONCA_CALLS_FULL = 18,
    PILGONCA_LATER_LAYER = 19,
    PILGONCA_UNFIT_TIMES = 22
};

/* One line for people, without a full stop. It is compiled into the caller: the libraries have no texts. */
static inline const char *pilgonca_refusal_text(size_t number)
{
    switch (number) {
    case PILGONCA_OK: return "accepted";
    case PILGONCA_FORM: return "the line is not of the form that is due there";
    case PILGONCA_OUT_OF_RANGE: return "a number is outside its range, the input is too long, or the table or state handed in is unsound";
    case PILGONCA_NOT_BELOW: return "a broader category does not come before its own, or an own type stands in a signature";
    case PILGONCA_SHORT_BUFFER: return "the buffer is too short";
    case PILGONCA_UNKNOWN_SUBJECT: return "there is no such subject";
    case PILGONCA_NOT_HELD: return "the subject does not hold the cell, or does not own what was called";
    case PILGONCA_UNKNOWN_TYPE: return "there is no such type, or it is not of the kind needed";
    case PILGONCA_UNRELATED: return "the types do not go together";
    case PILGONCA_NOT_OWNER: return "the type is own and the receiver does not own the object";
    case PILGONCA_NOT_STRICT: return "what the reference leads to lacks a method or is of another category";
    case PILGONCA_TYPES_FULL: return "no type number is free";
    case PILGONCA_PLACES_FULL: return "no place is free";
    case PILGONCA_CELLS_FULL: return "no cell is free";
    case PILGONCA_NOT_CALLABLE: return "the method cannot be called by the type of the cell";
    case PILGONCA_WRONG_VALUES: return "the arguments or the answer are not what the signature asks for";
    case PILGONCA_TOO_WIDE: return "the number does not fit 32 bits";
    case PILGONCA_ANSWERED_ALREADY: return "the call is answered already";
    case PILGONCA_CALLS_FULL: return "the subject has made all of its calls";
    case PILGONCA_LATER_LAYER: return "a value fails at a layer behind the first of the call";
    case PILGONCA_UNFIT_TIMES: return "a list of times is too long, falls or leaves its range, or the tolerance is too large";
    default: return "there is no refusal with this number";
    }
}

/*
 * Layout (B1 to B29). A number in a record is one byte.
 *   type i    128 bytes from 128*i: representation (0 ref, 1 w32, 2 w64), category, own (0, 1), of a derived type kind (0 Sub, 1 Sup, 2 Closed), left,
 *             right; ten spare bytes; then from byte 16 on seven bytes for each method: state (0 denied, 1 optional, 2 avail, 3 unavail), how many
 *             arguments (0 to 4), four slots for their types, used from the first on, and 0 for no answer or the answer's type plus 1
 *   link k    3 bytes from 3*k, category k: how many broader ones (1 or 2), first, second
 *   cell k    3 bytes from 3*k: holder, type, place
 *   place p   3 bytes from 3*p: 0, class and owner of an object; or 1, place behind and closed type of an adapter
 *   call j    4 bytes from 4*j: caller, cell, method, answered (0, 1)
 *   counts    subjects, methods, categories, sheet types, types; of a state also cells, places, calls
 * What is behind a count may hold anything.
 */

/*
 * A table and a state in one piece. The functions take the arrays one by one, so they may stand apart as well; the two macros pass those of a struct, in
 * order.
 */
struct pilgonca_table {
    uint8_t types[PILGONCA_TYPE_BYTES];
    uint8_t links[PILGONCA_LINK_BYTES];
    size_t counts[PILGONCA_TABLE_COUNTS];
};

struct pilgonca_state {
    uint8_t types[PILGONCA_TYPE_BYTES];
    uint8_t links[PILGONCA_LINK_BYTES];
    uint8_t cells[PILGONCA_CELL_BYTES];
    uint8_t places[PILGONCA_PLACE_BYTES];
    uint8_t calls[PILGONCA_CALL_BYTES];
    size_t counts[PILGONCA_STATE_COUNTS];
};

#define PILGONCA_TABLE_OF(table) (table)->types, (table)->links, (table)->counts
#define PILGONCA_STATE_OF(state) (state)->types, (state)->links, (state)->cells, (state)->places, (state)->calls, (state)->counts

/* ---- a table ----
 *
 * Compare, write and pairs only read, so they also take the arrays of a state. The reader stores a table of its own: lent the arrays of a state it would
 * put other types under its cells and places, and nothing that is proved of a state would be true of what stands there. A state is begun by pilgonca_load.
 */

/* Compare (R14): 2 or 7; else 16 plus the sum of 1 for subtype, 2 strict, 4 loose and 8 free. */
size_t pilgonca_compare(
    const uint8_t types[PILGONCA_TYPE_BYTES],
    const uint8_t links[PILGONCA_LINK_BYTES],
    const size_t counts[PILGONCA_TABLE_COUNTS],
    int64_t t,
    int64_t s);

/* Sheet read (S): a table, and 0 in at; refused (1, 2, 3), an empty table, and in at the offset of the first byte of the line at fault. */
size_t pilgonca_read(
    const uint8_t *text,
    size_t text_len,
    uint8_t types[PILGONCA_TYPE_BYTES],
    uint8_t links[PILGONCA_LINK_BYTES],
    size_t counts[PILGONCA_TABLE_COUNTS],
    size_t *at);

/* Sheet write (W): the sheet's text in front of the buffer, and its length. 2, 4. */
size_t pilgonca_write(
    uint8_t *buffer,
    size_t buffer_len,
    const uint8_t types[PILGONCA_TYPE_BYTES],
    const uint8_t links[PILGONCA_LINK_BYTES],
    const size_t counts[PILGONCA_TABLE_COUNTS],
    size_t *length);

/* The pair table (E9): byte 48*T + S has the sum of pilgonca_compare, without the 16, for each pair of sheet types. 2. */
size_t pilgonca_pairs(
    const uint8_t types[PILGONCA_TYPE_BYTES],
    const uint8_t links[PILGONCA_LINK_BYTES],
    const size_t counts[PILGONCA_TABLE_COUNTS],
    uint8_t out[PILGONCA_PAIR_BYTES]);

/* ---- a state ----
 *
 * A request that is accepted stores the new state in the arrays lent, and three values: values[0] is how many results there are (0, 1 or 2), values[1]
 * the first and values[2] the second, 0 where there is none. What is proved of references (L19 to L27) is proved of a state that pilgonca_load began,
 * and that only the functions below have changed since, refused calls included.
 */

/* The state of a sheet (Q10): as pilgonca_read, with no cells, places or calls. */
size_t pilgonca_load(
    const uint8_t *text,
    size_t text_len,
    uint8_t types[PILGONCA_TYPE_BYTES],
    uint8_t links[PILGONCA_LINK_BYTES],
    uint8_t cells[PILGONCA_CELL_BYTES],
    uint8_t places[PILGONCA_PLACE_BYTES],
    uint8_t calls[PILGONCA_CALL_BYTES],
    size_t counts[PILGONCA_STATE_COUNTS],
    size_t *at);

/* New (N): the subject makes an object of the class and holds it as the type. Results: cell (values[1]), place. */
size_t pilgonca_new(
    uint8_t types[PILGONCA_TYPE_BYTES],
    const uint8_t links[PILGONCA_LINK_BYTES],
    uint8_t cells[PILGONCA_CELL_BYTES],
    uint8_t places[PILGONCA_PLACE_BYTES],
    uint8_t calls[PILGONCA_CALL_BYTES],
    size_t counts[PILGONCA_STATE_COUNTS],
    int64_t subject,
    int64_t class_,
    int64_t to,
    int64_t values[PILGONCA_VALUES]);

/* Move (M): the subject hands what its cell leads to on to the receiver, as the type. Results: cell (values[1]), place. */
size_t pilgonca_move(
    uint8_t types[PILGONCA_TYPE_BYTES],
    const uint8_t links[PILGONCA_LINK_BYTES],
    uint8_t cells[PILGONCA_CELL_BYTES],
    uint8_t places[PILGONCA_PLACE_BYTES],
    uint8_t calls[PILGONCA_CALL_BYTES],
    size_t counts[PILGONCA_STATE_COUNTS],
    int64_t subject,
    int64_t cell,
    int64_t receiver,
    int64_t to,
    int64_t values[PILGONCA_VALUES]);

/*
 * Call (C): an argument is a number, or the number of a cell where the signature has a reference. Arguments may be of any length, and one that is not the
 * signature's is 15 (C4): no call with more than PILGONCA_ARGUMENTS is accepted. Results: call (values[1]), how many adapters it goes through.
 * References among the arguments become the next cells of the owner of what is called, in their order (C10, C12, C17): the first has the number that
 * counts[5] was before. No value names them, so the firmware tells the owner. A subject that has made PILGONCA_CALLS_EACH calls is refused with 18, by its
 * own calls alone: refused ones do not count, those of others do not, and an answer gives none back (C7).
 */
size_t pilgonca_call(
    uint8_t types[PILGONCA_TYPE_BYTES],
    const uint8_t links[PILGONCA_LINK_BYTES],
    uint8_t cells[PILGONCA_CELL_BYTES],
    uint8_t places[PILGONCA_PLACE_BYTES],
    uint8_t calls[PILGONCA_CALL_BYTES],
    size_t counts[PILGONCA_STATE_COUNTS],
    int64_t subject,
    int64_t cell,
    int64_t method,
    const int64_t *arguments,
    size_t arguments_len,
    int64_t values[PILGONCA_VALUES]);

/* Answer (A): given is 0 for no value, which is then not looked at. Results: cell (values[1]) and place of a reference, the number, or none. */
size_t pilgonca_answer(
    uint8_t types[PILGONCA_TYPE_BYTES],
    const uint8_t links[PILGONCA_LINK_BYTES],
    uint8_t cells[PILGONCA_CELL_BYTES],
    uint8_t places[PILGONCA_PLACE_BYTES],
    uint8_t calls[PILGONCA_CALL_BYTES],
    size_t counts[PILGONCA_STATE_COUNTS],
    int64_t subject,
    int64_t call,
    size_t given,
    int64_t value,
    int64_t values[PILGONCA_VALUES]);

/*
 * Offers (E11): 1 or 0, whether the cell offers the chain of methods, each called on what the one before answered. 2: so it is also the check of a state
 * handed in. It has no subject: tell a module only of cells that it holds.
 */
size_t pilgonca_offers(
    const uint8_t types[PILGONCA_TYPE_BYTES],
    const uint8_t links[PILGONCA_LINK_BYTES],
    const uint8_t cells[PILGONCA_CELL_BYTES],
    const uint8_t places[PILGONCA_PLACE_BYTES],
    const uint8_t calls[PILGONCA_CALL_BYTES],
    const size_t counts[PILGONCA_STATE_COUNTS],
    int64_t cell,
    const int64_t *chain,
    size_t chain_len,
    size_t *offered);

/*
 * A run (U): requests as words (code 0 new, 1 move, 2 call, 3 answer; how many operands; those), and four numbers for each that is served. The state is
 * checked once. 2.
 */
size_t pilgonca_run(
    uint8_t types[PILGONCA_TYPE_BYTES],
    const uint8_t links[PILGONCA_LINK_BYTES],
    uint8_t cells[PILGONCA_CELL_BYTES],
    uint8_t places[PILGONCA_PLACE_BYTES],
    uint8_t calls[PILGONCA_CALL_BYTES],
    size_t counts[PILGONCA_STATE_COUNTS],
    const int64_t *words,
    size_t words_len,
    int64_t *answers,
    size_t answers_len,
    size_t *served);

/* ---- a script ---- */

/* What the program script prints for an input (P19): the output in front of the buffer, and its length. 4. */
size_t pilgonca_script(
    const uint8_t *input,
    size_t input_len,
    uint8_t *buffer,
    size_t buffer_len,
    size_t *length);

/* ---- sheets to try ---- */

/*
 * Every tiny sheet (P22), as the program tiny prints them (P26): one behind the other in front of the buffer, each from `guide=1` to the LF of its
 * `end=sheet`, and their length, which is PILGONCA_TINY_BYTES. 4.
 */
size_t pilgonca_tiny(
    uint8_t *buffer,
    size_t buffer_len,
    size_t *length);

/* ---- marks and arrivals ---- */

/*
 * Marks against the arrivals of a door counter (V): two lists of milliseconds, each in order. A pair is a mark and an arrival at most `within` apart, and no
 * entry stands in two pairs. Stored are three counts (V6): counts[0] pairs, as many as there can be, counts[1] unpaired marks, counts[2] unpaired arrivals.
 * Lists may be of any length and hold any numbers: one with more than PILGONCA_TIMES, with a time above PILGONCA_LAST_TIME or below the one before it, and a
 * tolerance above PILGONCA_TOLERANCE are refused, and the counts stay as they were (V3). It has no state and no subject, and keeps nothing. 22.
 */
size_t pilgonca_doors(
    const uint64_t *marks,
    size_t marks_len,
    const uint64_t *arrivals,
    size_t arrivals_len,
    uint64_t within,
    size_t counts[PILGONCA_DOOR_COUNTS]);

#ifdef __cplusplus
}
#endif

#endif
