/* Hestovane: crane registers, their summaries and questions, proved. The five calls of libhestovane.a, for C and C++.
 * docs/FORMATS.md has the bytes of a register, a summary, a question and a list; examples/hoists.c goes the whole way.
 *
 * Every call may be handed any bytes: it judges them for itself, and comes to an end. It gives 0 or more (a length, or 1 for
 * yes and 0 for no), or it refuses: then it gives minus one of the numbers below, and no lent byte changes.
 *
 *     int32_t length = hestovane_condense(2, 3, 7, reg, reg_len, summary, sizeof summary);
 *     if (length == -HESTOVANE_REFUSED_LINK) ..
 *
 * A pointer may be null where its length is 0. What is read may not overlap out. The calls keep nothing between them and may
 * run in several threads at once. A call takes up to 175 KiB of stack (measured on aarch64): lend its thread 256 KiB. */
#ifndef HESTOVANE_H
#define HESTOVANE_H

#include <stddef.h>
#include <stdint.h>

/* Why a call refuses. It gives minus the number; of several faults, that of the first in the order stated at the call. */
#define HESTOVANE_REFUSED_HEADER 1   /* register under 12 bytes; or wrong offsets, total, zero field or length */
#define HESTOVANE_REFUSED_SIZE 2     /* more than 1,024 items or 2,048 links */
#define HESTOVANE_REFUSED_LINK 3     /* a link's item is not there, its label is above 15, or order not strict */
#define HESTOVANE_REFUSED_RANGE 4    /* level outside 1 to 4, neighbour cap outside 1 to 7, or class cap outside 1 to 15 */
#define HESTOVANE_REFUSED_QUESTION 5 /* question malformed */
#define HESTOVANE_REFUSED_SUMMARY 6  /* summary not well formed */
#define HESTOVANE_REFUSED_BEYOND 7   /* question deeper than the summary's level, or a threshold above neighbour cap + 1 */
#define HESTOVANE_REFUSED_ITEM 8     /* no item has that number */
#define HESTOVANE_REFUSED_ROOM 9     /* out is shorter than the answer */

/* The greatest lengths in bytes: nothing longer is accepted or written. */
#define HESTOVANE_REGISTER_MOST 16396
#define HESTOVANE_SUMMARY_MOST 55320
#define HESTOVANE_QUESTION_MOST 256
#define HESTOVANE_LIST_MOST 2048

#ifdef __cplusplus
extern "C" {
#endif

/* Writes the summary of the register at that level (1 to 4), with neighbours counted up to neighbour_cap (1 to 7) and the
 * items of a class up to class_cap (1 to 15), and gives its length: the one summary that the definitions name, to the byte.
 * Refuses with 1, 2, 3, 4, 9, in that order. Bytes of out past the length stay as they were. */
int32_t hestovane_condense(uint16_t level, uint16_t neighbour_cap, uint16_t class_cap,
                           const uint8_t *reg, size_t reg_len, uint8_t *out, size_t out_len);

/* Gives 1 exactly when the summary, whoever made it, is an abstraction of the register, and else 0. Any grouping and
 * numbering may be proposed, and the level field is not judged. Refuses with 1, 2, 3, 6, in that order. Writes nothing. */
int32_t hestovane_check(const uint8_t *reg, size_t reg_len, const uint8_t *sum, size_t sum_len);

/* Gives 1 exactly when the question holds at the item of the register, and else 0. Neighbours are counted exactly, and
 * questions of any depth are answered. Refuses with 1, 2, 3, 5, 8, in that order. Writes nothing. */
int32_t hestovane_ask_register(const uint8_t *reg, size_t reg_len, const uint8_t *q, size_t q_len, uint16_t item);

/* Gives 1 exactly when the question holds at the item's class in the summary, and else 0. From a summary that
 * hestovane_condense made, that is the register's own answer. Refuses with 6, 5, 7, 8, in that order. Writes nothing. */
int32_t hestovane_ask_summary(const uint8_t *sum, size_t sum_len, const uint8_t *q, size_t q_len, uint16_t item);

/* Writes the items where the question holds, two bytes an item, most significant byte first, and gives the length in bytes.
 * From a summary that hestovane_condense made, they are the register's items where it holds: each, once, ascending, and no
 * other. Refuses with 6, 5, 7, 9, in that order. Bytes of out past the length stay as they were. */
int32_t hestovane_list(const uint8_t *sum, size_t sum_len, const uint8_t *q, size_t q_len, uint8_t *out, size_t out_len);

#ifdef __cplusplus
}
#endif

#endif
