/* The proved runtime for a host program in C: link libembed.a, a copy of crates/embed_c/out/libembed_c.a, which `rt lib`
 * makes in crates/embed_c.
 *
 * Every text is answered. A call keeps nothing for the next one, allocates nothing, and reads and writes only what it is
 * lent. A host owes it this: every pointer is good for the length beside it, and what is lent for writing overlaps nothing
 * else that is lent to the same call.
 *
 * Two kinds of answer. embed_read, embed_analyse and embed_walk answer the number of a refusal, 0 for none, and write its
 * places into `places`, always both: the first is 0 where nothing is refused, the second is 0 for all but number 8. The
 * three that write a text answer its length; 0 means that nothing was written and `out` is as it was. */
#ifndef COATER_H
#define COATER_H

#include <stddef.h>
#include <stdint.h>

#ifdef __cplusplus
extern "C" {
#endif

/* The room that embed_check asks of `out`; room for the text of every plan; room for every output of embed_run. The last
 * two by count: 2 + 5 * 32 + 512 lines of a plan, and 512 step lines of 28 bytes with 32 job lines of 13. */
enum { COATER_CHECK_ROOM = 8448, COATER_PLAN_ROOM = 8192, COATER_RUN_ROOM = 16384 };

/* The kinds of report that embed_walk takes; any other byte is taken for COATER_MORE. */
enum { COATER_NONE = 0, COATER_END = 1, COATER_MORE = 2 };

/* Reads a plan. Answers 0, or the reader's refusal: 1 a line not of its form, 2 slots, 3 jobs. Its place is the line. */
uint16_t embed_read(const uint8_t *text, size_t length, size_t places[2]);

/* Reads a plan and writes it again at the start of `out`. Answers the bytes written. Answers 0 and leaves `out` as it
 * was where the reader refuses the text or it does not fit. */
size_t embed_write(const uint8_t *text, size_t length, uint8_t *out, size_t room);

/* Reads a plan and analyses it. Answers 0, or the first refusal: the reader's, or one of the checks 2 to 9 and 17. The place is a
 * job for 4, 5, 7, 17, a slot for 6, a border for 9; 8 has two, the window's first border and its last. */
uint16_t embed_analyse(const uint8_t *text, size_t length, size_t places[2]);

/* Reads a plan, starts it, and reports once for each kind, each time for the slot whose turn it is. Answers 0, or the
 * first refusal: as embed_analyse, then 11 a report after the last slot, 13 a kind that does not fit the slot. The place of
 * these two is the border that the run stands at. */
uint16_t embed_walk(const uint8_t *text, size_t length, const uint8_t *kinds, size_t count, size_t places[2]);

/* The check program: writes its whole output for this input at the start of `out` and answers its length. Answers 0
 * and leaves `out` as it was where `room` is less than COATER_CHECK_ROOM. Bytes past the output stay as they were. */
size_t embed_check(const uint8_t *text, size_t length, uint8_t *out, size_t room);

/* The run program: `text` is a plan and, directly after it, its report lines. Writes the whole output, steps and jobs
 * or a refusal, at the start of `out` and answers its length. Answers 0 and leaves `out` as it was where the output
 * does not fit. Bytes past the output stay as they were. The text is gone through twice: to measure, then to write. */
size_t embed_run(const uint8_t *text, size_t length, uint8_t *out, size_t room);

#ifdef __cplusplus
}
#endif

#endif
