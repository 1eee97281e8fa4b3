/* A desk at which several people write one paper. Every letter carries who put it in and who struck it out.
 *
 * The desk allocates nothing: it works in three arrays of 32-bit words that the caller lends at every call, and keeps everything
 * there. Between calls the caller must not write to them; copying all three elsewhere copies the desk. The arrays must not overlap,
 * nor the call or the answer with them, and no pointer may be null, not even for an array of length 0. A desk has no state besides,
 * so different desks may be used by different threads.
 *
 * Limits. A desk is opened with three: how many cells its paper may have (up to 1,000,000), how many changes (up to 65,536), and how
 * much can be undone (up to 1,000,000). Each of calls 0 to 4 counts one and the cells that it is about: those that it puts in, strikes
 * at or styles, or that have the mark of the change that it decides. The latest can be undone as long as they count at most the limit
 * together; one that counts more by itself is done all the same, and nothing can be undone after it.
 *
 * The paper is a row of cells and a row of changes. A cell is a letter (32 to 126, or 10, which ends a paragraph), a style (0 to
 * 255), and two marks: by which open change it was put in, and by which it was struck out; 0 for none, else one more than the
 * change's number. A change has an author (0 to 255) and is 0 open, 1 accepted or 2 rejected. Its number is its place in the row.
 * Ways to look: 0 everything; 1 without what is struck out, as if all open changes were accepted; 2 without what was put in, as if
 * all were rejected. Places of cells count every cell, as in way 0.
 *
 * A call is a row of bytes: one that says which call it is, and its fields, four bytes each, low byte first. The letters of put and
 * find come last, one byte each; their count is the last field.
 *
 *    0  put     author, place, style, count, letters (1 to 1,024)  -> the number of the new change
 *    1  strike  author, place, how many cells                      -> the number of the new change
 *    2  accept  change                                             -> how many cells had its mark before
 *    3  reject  change                                             -> how many cells had its mark before
 *    4  style   place, how many cells, style                       -> how many
 *    5  undo                                                       -> how many calls there were to undo before
 *    6  redo                                                       -> how many calls there were to redo before
 *    7  show    way, width (1 to 256), first row, how many (1 to 64)  -> rows
 *    8  find    way, from which letter, count, letters (1 to 256)  -> one more than the place in that way to look, or 0
 *    9  count   way                                                -> how many letters are seen
 *   10  change  change                                             -> its author, and 0 open, 1 accepted, 2 rejected
 *   11  save    from which number, how many (1 to 1,024)           -> numbers of the paper's file
 *
 * An answer is a row of bytes too, numbers likewise of four bytes each, low byte first:
 *
 *    0  refused  the refusal, its place
 *    1  number   the number
 *    2  two      both numbers
 *    3  rows     how many rows; for each how many cells, and for each cell four numbers: letter, style, put in, struck out
 *    4  numbers  how many; the numbers
 *
 * The longest answer is 64 rows of 256 cells: 1 + 4 + 64 * (4 + 256 * 16) = 262,405 bytes.
 *
 * Refusals. What is refused changes nothing, no word of memory. They are looked for in this order; the place is in brackets:
 *
 *    1  a call that cannot be read (the first byte that does not fit: 0 if the first byte is missing or no call's, the number of
 *       bytes that came if some are missing, the first byte too many)
 *    2  a field out of range (0)
 *    3  at opening only: limits out of range (1), or less memory than they ask for (0)
 *    4  cells that are not there (1 in put and strike, 0 in style)
 *    5  a change that is not there (0)
 *    6  a change that is not open (0)
 *    7  nothing to undo or redo (0)
 *    8  rows (2) or numbers (0) that are not there
 *    9  the paper would have more cells or changes than its limits (0)
 */
#ifndef DESK_H
#define DESK_H

#include <stddef.h>
#include <stdint.h>

#ifdef __cplusplus
extern "C" {
#endif

/* The arrays that are lent. */
enum { DESK_CELLS = 0, DESK_PIECES = 1, DESK_UNDO = 2 };

/* How many bytes must be lent for an answer. */
#define DESK_ANSWER_BYTES 262405

/* What desk_words and desk_open return for a refusal: -(refusal * 2^32 + place). These take it apart. */
#define DESK_REFUSED(r) ((r) <= -4294967296)
#define DESK_REFUSAL(r) ((uint32_t)(-(r) / 4294967296))
#define DESK_PLACE(r) ((uint32_t)(-(r) % 4294967296))

/* How many 32-bit words an array needs for these limits: which is DESK_CELLS, DESK_PIECES or DESK_UNDO. What can be
 * undone takes 16 words, and 16 more for each that the limit allows. All three together are at most 8 for each cell and change, 16 for
 * each that can be undone, and 65,536 more.
 * Refused: any other which, -(2 * 2^32); limits out of range, -(3 * 2^32 + 1). */
int64_t desk_words(uint32_t which, uint32_t max_cells, uint32_t max_changes, uint32_t max_undos);

/* Opens a desk with an empty paper in the arrays, whatever they hold; they may be longer than asked for. Returns 0.
 * Refused with nothing touched: limits out of range, -(3 * 2^32 + 1); an array shorter than desk_words says, -(3 * 2^32). */
int64_t desk_open(uint32_t *cells, size_t cells_len, uint32_t *pieces, size_t pieces_len, uint32_t *undo, size_t undo_len,
                  uint32_t max_cells, uint32_t max_changes, uint32_t max_undos);

/* Does a call at a desk that desk_open opened in these arrays. The answer is written from answer[0] on, also if the call is refused
 * (it is then 9 bytes, the first of which is 0), and its length is returned; the bytes after it stay as they were.
 * If an array is shorter than the desk's limits ask for, or answer_len is less than DESK_ANSWER_BYTES: -1, with nothing touched.
 * The limits are kept in the first three words of the pieces: -1 too if there are fewer words, or if those are no limits. That is all
 * that is looked at: arrays that are long enough but that desk_open never opened, or that something else has written to since, may
 * make the desk read and write anywhere. */
int64_t desk_call(uint32_t *cells, size_t cells_len, uint32_t *pieces, size_t pieces_len, uint32_t *undo, size_t undo_len,
                  const uint8_t *call, size_t call_len, uint8_t *answer, size_t answer_len);

#ifdef __cplusplus
}
#endif

#endif
