/*
 * The proved checker, for programs in C. Link target/staticlib/libhost.a, which `examples/library` writes (x86-64 Linux).
 *
 * A log has the layout of document 01 (../shared/01-scope.md): T transactions, at most 32, and N operations, at most 256, in at most 1,156 bytes.
 * Any bytes may be passed as a log, an order, a start or times, and any number as a setting or a drift: what is wrong is refused by its number.
 * Every call ends, keeps nothing and may be made from several threads at once. None reads or writes past the lengths that it is given.
 *
 * Of the caller is asked what C can't test: a pointer has as many bytes as the length after it says, and is not null even where that length is 0,
 * and a buffer that a call writes to overlaps nothing else that the call is given.
 *
 * Stack: beaconcrumb_decide, beaconcrumb_decide_from, beaconcrumb_decide_strict and beaconcrumb_bills take at most some 700 KB, most of it in the search, and the others
 * at most some 180 KB (docs/DECISIONS.md), so a thread that calls one should have 4 MB.
 *
 * In a transaction a key may be read, then written, then read back: a read after the write names its own transaction and is explained by that write.
 *
 * Numbers: 0 done; 1 to 11, 34 and 35 the log is refused, as listed below; 12 encoding over 2 or pruning over 1; 13 the order is not every number below T once;
 * 25 a buffer is too short; 36 the starting table (start) is not 64 bytes; 37 the times (begin and end) are neither both empty nor both 4T bytes;
 * 38 a begin after its end, or a drift over 3,600; 255 no, as said below. 36 is tested before the log, 37 and then 38 after it.
 *
 * The numbers of a refused log, in the order of the tests: first the header and the length; then entry by entry, in each 4 before 5; then 6; then body by
 * body, in each 7, 8, 9, then 10 or 34, then 11. The first test that fails gives its number, and all before it have passed. That doesn't say that the
 * fields are right: T and N exchanged, or a wrong count, may show only in a later number. Nor does the number say which entry t or body i it is, both
 * counted from 0: it is the first, from the front, of which the line is true. Transaction t has the bodies from its start on, as many as its count.
 * A field of two bytes has the low byte first. docs/MANUAL.md, "All numbers", says what to mend.
 *
 *   number  what is wrong                                                     which byte to look at
 *    1      fewer than 4 bytes                                                the length
 *    2      T over 32, or N over 256                                          0-1 (T), 2-3 (N)
 *    3      shorter than T and N say: fewer than 4 + 4T + 4N bytes            the last one; 0-3 (T and N)
 *   35      longer than T and N say: more than 4 + 4T + 4N bytes              4 + 4T + 4N, the first too many; 0-3 (T and N)
 *    4      a cabinet over 15                                                 4 + 4t
 *    5      a start that is not the sum of the counts before it               6 + 4t and 7 + 4t; the counts before it, 5, 9, 13 ..
 *    6      counts that don't sum to N                                        5, 9, 13 .. (the counts); 2-3 (N)
 *    7      a kind other than 0 (a read) and 1 (a write)                      4 + 4T + 4i
 *    8      a key over 31                                                     5 + 4T + 4i
 *    9      a read that names T or more, and not 65535                        6 + 4T + 4i and 7 + 4T + 4i
 *   10      a second read of a key in a transaction, on the same side of      5 + 4T + 4i, the key; an earlier read of the
 *           its write there, or where it is not written there                 transaction, on that side, has the same
 *   34      a second write of a key in a transaction                          5 + 4T + 4i, the key; an earlier write of the
 *                                                                             transaction has the same
 *   11      a read after the transaction's own write of the key that          6 + 4T + 4i and 7 + 4T + 4i; an earlier write
 *           names anything but that transaction                               of the transaction has its key, 5 + 4T + 4i
 */
#ifndef BEACONCRUMB_H
#define BEACONCRUMB_H

#include <stddef.h>
#include <stdint.h>

#ifdef __cplusplus
extern "C" {
#endif

/*
 * Finds the first legal order of a log, and the table that it leaves where each key was 0 before the window.
 * For a window whose levels before it are known use beaconcrumb_decide_from, below. This one is for a window that really begins with zeros, and for one
 * whose levels are not known; of the latter only the keys that the log writes have a meaning in the table. Code and order are the same from both functions,
 * where the start has its 64 bytes; beaconcrumb_encode and beaconcrumb_check take none, as their answers can't depend on it.
 * Takes the log, an encoding (0 plain, 1 joined, 2 chained) and pruning (0 or 1): where they are taken they change the time and
 * never the answer.
 * Gives 0 and writes the order, T numbers of one byte, and the table, 32 values by key of two bytes, low byte first.
 * Gives 255 where no legal order exists, and a number of a refused log, 12 or 25 (an order shorter than T bytes, a table shorter than 64) where it
 * refuses: it tests the log, then 12, 255, 25. So a short buffer is refused only where there is an order to write. With 32 bytes for the order and 64 for
 * the table 25 is never given.
 * Unless it gives 0 nothing is written; bytes behind the T and behind the 64 are never written.
 */
uint32_t beaconcrumb_decide(const uint8_t *log, size_t log_len, uint8_t encoding, uint8_t pruning,
                            uint8_t *order, size_t order_len, uint8_t *table, size_t table_len);

/*
 * The same of a window that begins with real levels: start holds the value of each key before the window's first transaction, 32 values by key of two
 * bytes, low byte first, 64 bytes in all. That is the table's layout, so the 64 bytes that were written for one window can be the start of the next;
 * in one call start and table are two buffers.
 * The table written then has a meaning for every key: the last value that the order given writes to it or, where the log doesn't write it, its value in
 * start. It is the table of the first legal order; where other orders are legal too, they may leave another.
 * Gives 36 where start is not 64 bytes long, before it looks at the log; all else as beaconcrumb_decide, which is this function with 64 zeros. The start
 * changes the table alone, never the code or the order.
 */
uint32_t beaconcrumb_decide_from(const uint8_t *log, size_t log_len, const uint8_t *start, size_t start_len, uint8_t encoding, uint8_t pruning,
                                 uint8_t *order, size_t order_len, uint8_t *table, size_t table_len);

/*
 * Writes the polygraph of a log in a setting: the known edges and the constraints that are left.
 * Gives 0 and writes, low bytes first: the count of constraints left (2 bytes); the 32 row words (4 bytes each; bit v of word u is the edge
 * from u to v); and for each constraint left, in list order, 10 bytes: side A's sources as a mask (4) and target (1), then side B's.
 * So out needs 130 bytes and 10 for each constraint left: 41,090 are always enough, as no log that is taken has more than 4,096 constraints.
 * Gives a number of a refused log, 12 or 25 (out is shorter than that) where it refuses, tested in that order. Unless it gives 0 nothing is written;
 * bytes behind are never written.
 */
uint32_t beaconcrumb_encode(const uint8_t *log, size_t log_len, uint8_t encoding, uint8_t pruning,
                            uint8_t *out, size_t out_len);

/*
 * Says whether an order, one byte for each transaction, is legal for a log: it keeps each cabinet's own order and explains every read.
 * Gives a number of a refused log, then 13, where it refuses; else 0 where the order is legal and 255 where it is not. Writes nothing.
 */
uint32_t beaconcrumb_check(const uint8_t *log, size_t log_len, const uint8_t *order, size_t order_len);

/*
 * Strict order by the office clock, for owners who bought strict serializability: the same three questions of a log with times.
 * begin and end hold the second in which each transaction began and ended, in the order of the log's entries: four bytes each, low byte first, so 4T bytes
 * both. Two lengths of 0 mean a window without times (both pointers must not be null then either). With drift 0 the functions are then those above,
 * beaconcrumb_decide_strict is beaconcrumb_decide_from. Another drift orders nothing there, but one over 3,600 is refused all the same.
 * The clock knows no summer time. drift, 0 to 3,600 seconds, is added to every end before it is compared.
 * Transaction i comes before j by the clock where end of i plus drift is less than begin of j, a sum that doesn't wrap; equal seconds order nothing.
 * Each such pair is a known edge in every encoding, and an order is legal only if it keeps all of them.
 * They give 37 where begin and end are neither both empty nor both 4T bytes, and 38 where a begin is after its end or the drift is over 3,600, also without
 * times. What they test, in this order: beaconcrumb_decide_strict 36, the log, 37, 38, 12, 255, 25; beaconcrumb_encode_strict the log, 37, 38, 12, 25;
 * beaconcrumb_check_strict the log, 37, 38, 13. What is written, and when, is as above.
 */
uint32_t beaconcrumb_decide_strict(const uint8_t *log, size_t log_len, const uint8_t *start, size_t start_len,
                                   const uint8_t *begin, size_t begin_len, const uint8_t *end, size_t end_len, uint32_t drift,
                                   uint8_t encoding, uint8_t pruning, uint8_t *order, size_t order_len, uint8_t *table, size_t table_len);

uint32_t beaconcrumb_encode_strict(const uint8_t *log, size_t log_len, const uint8_t *begin, size_t begin_len, const uint8_t *end, size_t end_len,
                                   uint32_t drift, uint8_t encoding, uint8_t pruning, uint8_t *out, size_t out_len);

uint32_t beaconcrumb_check_strict(const uint8_t *log, size_t log_len, const uint8_t *begin, size_t begin_len, const uint8_t *end, size_t end_len,
                                  uint32_t drift, const uint8_t *order, size_t order_len);

/*
 * Wear charges: what each cabinet pays for the gates that it moves in a window, with a start and times as beaconcrumb_decide_strict takes them. The order is
 * the first legal one, which that function writes; no setting is taken, as none changes it.
 * Keys 0 to 15 are gates, their values centimetres; other keys cost nothing. In the order each write moves its gate from the value before it, for the first
 * write of a key the one in start, to its own, and the cabinet of its transaction pays. Mills for each centimetre up, and down: keys 0-3 12 and 4,
 * keys 4-7 15 and 5, keys 8-11 20 and 6, keys 12-15 35 and 10.
 * Gives 0 and writes a record of 12 bytes for each of the cabinets 0 to 15, that of cabinet c from byte 12c on, four bytes each, low byte first: its mills; its
 * cents, which are the mills divided by 10, rounded down; and its travel, up less down on all gates in centimetres, as two's complement (int32_t).
 * No sum wraps: all mills together are at most 587,193,600. A cabinet that moves nothing has twelve zeros.
 * Gives 255 where no legal order exists, and 36, a number of a refused log, 37, 38 or 25 (out is shorter than 192 bytes) where it refuses: it tests 36, the
 * log, 37, 38, 255, 25. With 192 bytes 25 is never given. Unless it gives 0 nothing is written; bytes from 192 on are never written.
 */
uint32_t beaconcrumb_bills(const uint8_t *log, size_t log_len, const uint8_t *start, size_t start_len,
                           const uint8_t *begin, size_t begin_len, const uint8_t *end, size_t end_len, uint32_t drift,
                           uint8_t *out, size_t out_len);

#ifdef __cplusplus
}
#endif

#endif
