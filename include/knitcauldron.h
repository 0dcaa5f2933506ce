/*
 * Knitcauldron for callers in C and C++; link with libcapi.a.
 *
 * Document 01, the project's paper on scope and rules, says what an image is, when one is admitted and how one runs. The numbers
 * and the order of the values below are that paper's.
 */
#ifndef KNITCAULDRON_H
#define KNITCAULDRON_H

#include <stddef.h>
#include <stdint.h>

#ifdef __cplusplus
extern "C" {
#endif

/* How many words an answer has. The values named beside each number below come first, in that order; every word after them is 0. */
#define KNIT_ANSWER_WORDS 5

/* The program is admitted. Answer: nothing, so five zeros. */
#define KNIT_ADMITTED 0

/* Image faults: the bytes are not an image. They are looked for in this order, before anything else, and the first one found is
 * the answer. Functions and instructions are numbered from 0, an instruction by its place in the whole instruction table. What is
 * said last of each number is what helps; where that is to compile again, whoever made the image has to do it. */
#define KNIT_SHORT 1          /* Under 24 bytes. Answer: nothing. Fetch the image again, its end is missing. */
#define KNIT_FORM 2           /* The form number is not 1. Answer: nothing. See that it is the right file, or compile for form 1. */
#define KNIT_LAYOUT 3         /* An offset or a length differs from what the counts demand. Answer: nothing. Fetch the image again,
                               * whole and with nothing after it. */
#define KNIT_FUNCTION_TABLE 4 /* A function's zero field isn't 0, it doesn't start where the last one ended, or the counts don't
                               * sum up. Answer: its number, or the number of functions if only the sum fails. Fetch or compile
                               * the image again. */
#define KNIT_INSTRUCTION 5    /* Opcode, small, w or an unused field. Answer: the instruction's number. Fetch or compile again. */

/* Verdicts: the bytes are an image, but its program is not admitted. KNIT_PROFILE is looked for first, then KNIT_EMPTY_PROGRAM,
 * KNIT_TOO_MANY_FUNCTIONS and KNIT_INVALID_ENTRY, then the functions in their order; the first one found is the answer. In an
 * answer, "function" is the number of the function at fault. */
#define KNIT_PROFILE 10               /* A limit is out of range. Answer: 0 if it is zero or 1 if it is too high; its place 1..5.
                                       * Mend the caller's limits, the image is not to blame. */
#define KNIT_EMPTY_PROGRAM 11         /* No function. Answer: nothing. Ask for an upload that holds a rule. */
#define KNIT_INVALID_ENTRY 12         /* No such entry function. Answer: the entry. Compile again with an entry that exists. */
#define KNIT_TOO_MANY_FUNCTIONS 13    /* Answer: how many there are; the limit. Split the program, or raise the limit. */
#define KNIT_TOO_MANY_REGISTERS 14    /* Answer: function; its registers; the limit. Split the function, or raise the limit. */
#define KNIT_TOO_MANY_INSTRUCTIONS 15 /* Answer: function; its instructions; the limit. Split the function, or raise the limit. */
#define KNIT_INVALID_REGISTER 16      /* Answer: function; the register it does not have. Compile again with enough registers. */
#define KNIT_INVALID_JUMP 17          /* Answer: function; the target past its end. Compile again with targets inside it. */
#define KNIT_INVALID_CALL 18          /* Answer: function; the called function that does not exist. Compile again, with it. */
#define KNIT_MISSING_RETURN 19        /* It has no Ret at all. Answer: function. Compile again with a Ret in it. */
#define KNIT_INVALID_ARG_WINDOW 20    /* The arguments end past the function's registers, or are more than the called function has.
                                       * Answer: function; first argument register; number of arguments. Compile again with fewer
                                       * arguments, or with more registers. */

/*
 * Says whether the bytes are an image and whether its program keeps to five limits. Each limit must be at least 1; the highest
 * allowed are 16384 registers, 4096 functions, call depth 1024, 1000000 instructions in a function and fuel 1000000000. Document
 * 01's safe limits are 256, 256, 64, 8192 and 1000000.
 *
 * Returns KNIT_ADMITTED, an image fault (1..5) or a verdict (10..20), and writes all five words of `answer` in each case.
 *
 * The caller guarantees:
 * - `image` is not null and points to `image_len` readable bytes, at any alignment. If `image_len` is 0 it still is not null; no
 *   byte is read then.
 * - `answer` points to five writable words, aligned as uint64_t is, and they do not overlap the image.
 * - Nobody else writes the image, or reads or writes the answer, while the call runs.
 *
 * In return the call reads nothing but the image and writes nothing but those five words. There is no state: equal arguments get
 * equal answers, no call has to come first, and calls may run in parallel, also on the same image.
 */
uint64_t knit_validate(const uint8_t *image, size_t image_len,
    uint16_t max_registers, uint16_t max_functions, uint16_t max_call_depth,
    uint32_t max_instrs_per_function, uint64_t max_fuel, uint64_t answer[KNIT_ANSWER_WORDS]);

/* The program has run, and returned or trapped. Answer: status; kind; payload; fuel used; digest. */
#define KNIT_DONE 0

/* Refusals for want of room: a frame would begin and the lent memory can't hold it. Answer: fuel used, 0 for the entry's frame.
 * Another depth limit is no cure: it makes another result, with another digest. */
#define KNIT_FRAME_ROOM 6    /* No record is left for it. Lend more words for frames. */
#define KNIT_REGISTER_ROOM 7 /* A record is left, but too few words for its registers. Lend more. */

/* How a run ended: 0, or 1 + the trap's code. A trap is a result, its value Unit. */
#define KNIT_STATUS_RETURNED 0
#define KNIT_STATUS_INVALID_PC 1          /* The place is at or past the function's end. This round charges nothing. */
#define KNIT_STATUS_INVALID_REGISTER 2    /* A register that its function doesn't have, an argument's too. */
#define KNIT_STATUS_TYPE_MISMATCH 3       /* A register holds a value of another kind than the instruction takes. */
#define KNIT_STATUS_DIVISION_BY_ZERO 4
#define KNIT_STATUS_INTEGER_OVERFLOW 5    /* The result is outside its type, for Fx too. */
#define KNIT_STATUS_FUEL_EXCEEDED 6       /* The limit is used up and the program not at its end. Fuel used is the whole limit. */
#define KNIT_STATUS_CALL_DEPTH_EXCEEDED 7 /* A Call with as many frames as max_call_depth, the entry's among them. */
#define KNIT_STATUS_INVALID_FUNCTION 8    /* The entry, or a called function, doesn't exist. */
#define KNIT_STATUS_ASSERT_FAILED 9
#define KNIT_STATUS_EXPLICIT_TRAP 10

/* Kinds of a value, with what the payload then is. No instruction makes a value of the last three. */
#define KNIT_KIND_UNIT 0 /* 0 */
#define KNIT_KIND_QUAD 1 /* 0..3: N, F, T, S */
#define KNIT_KIND_BOOL 2 /* 0 or 1 */
#define KNIT_KIND_I32 3  /* the number, a negative one plus 2^32 */
#define KNIT_KIND_U32 4  /* the number */
#define KNIT_KIND_FX 5   /* the number of 65536ths, a negative one plus 2^32 */
#define KNIT_KIND_TUPLE 6
#define KNIT_KIND_RECORD 7
#define KNIT_KIND_ADT 8

/* How many words a frame's record has, and which: the function's number; its place, counted in instructions from the function's
 * first; the caller's register that the result goes to, 0 for the entry; the index of the frame's first register in `registers`. */
#define KNIT_FRAME_WORDS 4
#define KNIT_FRAME_FUNCTION 0
#define KNIT_FRAME_PLACE 1
#define KNIT_FRAME_RETURN_REGISTER 2
#define KNIT_FRAME_FIRST_REGISTER 3

/*
 * Runs the image's entry function for at most `fuel` instructions and with at most `max_call_depth` frames at a time; the entry's
 * frame is one of them, but begins at limit 0 as well. The caller lends all memory that the run needs: `frames_len` words for
 * records, KNIT_FRAME_WORDS each, where up to three words left over at the end are no record; and `registers_len` words, one for
 * each register: kind * 2^32 + payload. What these words hold before the call doesn't matter.
 *
 * The program need not be admitted: one that breaks the rules traps when it comes to that. No flag and no profile is read, so only
 * the two limits given here count.
 *
 * Returns KNIT_DONE, an image fault (1..5), KNIT_FRAME_ROOM or KNIT_REGISTER_ROOM, and writes all five words of `answer` in each
 * case.
 *
 * Enough room, so that no refusal for want of it can be: max(1, max_call_depth) records, and that many times the largest register
 * count of any function in the image as register words.
 *
 * What the lent memory holds afterwards:
 * - After an image fault, or if the entry doesn't exist or its frame is refused, all words are as they were.
 * - Else the state that the run reached. Record 0 is the entry's; a called function's record and registers come right after its
 *   caller's. It begins with its arguments, then Unit in all its other registers.
 * - A place is that of the instruction to come; while a called function runs, its caller's is already the one after the Call.
 * - A trap or a refused Call leaves the running function's record at the place of the instruction at fault; that instruction has
 *   written nothing.
 * - Ret writes the caller's register and nothing else, so the record and the registers of a function that returned stay until
 *   another Call takes their place; the entry's record ends with the place of its Ret.
 * - Words that no frame reached stay as they were.
 *
 * The caller guarantees:
 * - `image` is not null and points to `image_len` readable bytes, at any alignment.
 * - `frames` and `registers` are not null, aligned as uint64_t is, and point to `frames_len` and `registers_len` words that can be
 *   read and written.
 * - A pointer whose length is 0 isn't null either, and is aligned; nothing there is touched.
 * - `answer` points to five writable words, aligned as uint64_t is.
 * - Image, frames, registers and answer do not overlap each other.
 * - Nobody else writes the image, or reads or writes the other three, while the call runs.
 *
 * In return the call reads nothing but the image and the lent words, and writes nothing but those words and the answer. There is no
 * state: equal arguments get equal answers, no call has to come first, and calls may run in parallel, also on the same image.
 */
uint64_t knit_execute(const uint8_t *image, size_t image_len, uint64_t fuel, uint16_t max_call_depth,
    uint64_t *frames, size_t frames_len, uint64_t *registers, size_t registers_len, uint64_t answer[KNIT_ANSWER_WORDS]);

/*
 * The digest of a run's first four words. knit_execute gives it as the fifth; this is for words that came from elsewhere, and takes
 * any: from 0xcbf29ce484222325 on, exclusive or with a word and then times 2^44 + 435 modulo 2^64, for status, kind, payload, 0 and
 * fuel used in turn. It is not FNV, whose prime is another.
 */
uint64_t knit_digest(uint64_t status, uint64_t kind, uint64_t payload, uint64_t fuel_used);

/* An image of more bytes than fit. Only the runner program answers this, in the line that it prints, since its buffer has 32768
 * bytes; no function here does. Answer: 0. Send it a shorter image, or call knit_execute. */
#define KNIT_TOO_LONG 8

/* Fewer bytes are lent than an identifier has. Answer: nothing. Lend KNIT_EVENT_ID_BYTES. */
#define KNIT_ID_ROOM 9

/* How many bytes an event's identifier has. */
#define KNIT_EVENT_ID_BYTES 25

/*
 * Writes document 01's identifier of a calendar event: the lesson's number as 8 lower-case hex digits, '-', and the digest as 16,
 * each with leading zeros. The digest is meant to be a run's fifth word, but any number is taken.
 *
 * Returns 0, with the number of bytes written, KNIT_EVENT_ID_BYTES, as the answer; or KNIT_ID_ROOM if `out_len` is less than that.
 * Writes all five words of `answer` in each case.
 *
 * What `out` holds afterwards:
 * - The identifier in its first KNIT_EVENT_ID_BYTES bytes, with no terminating zero: whoever wants a C string lends one byte more
 *   and sets it.
 * - The bytes after these are as they were. If the call is refused, all bytes are as they were.
 *
 * The caller guarantees:
 * - `out` is not null and points to `out_len` writable bytes, at any alignment. If `out_len` is 0 it still is not null; no byte is
 *   touched then.
 * - `answer` points to five writable words, aligned as uint64_t is, and they do not overlap `out`.
 * - Nobody else reads or writes either while the call runs.
 *
 * In return the call writes nothing but those bytes and words, and what they held before doesn't matter. There is no state: equal
 * arguments get equal answers, no call has to come first, and calls may run in parallel.
 */
uint64_t knit_event_id(uint32_t lesson, uint64_t digest, uint8_t *out, size_t out_len, uint64_t answer[KNIT_ANSWER_WORDS]);

#ifdef __cplusplus
}
#endif

#endif
