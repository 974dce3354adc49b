/* taffrail: check and search maps of OCAD 6 to 11, and edit those of OCAD 6, 7 and 8.
 *
 * A slice passes as a pointer and then its length. Every call returns a number of documents 01 and 02 (0: accepted, searched, done, or done before) and writes
 * every out parameter, on a refusal too. No call needs anything checked beforehand: any bytes at all may stand in a buffer, and any number in an argument.
 *
 * What the caller sees to: a pointer with a length other than 0 points to that many bytes (or numbers) that live through the call, buffers and out parameters
 * of one call do not overlap, and no other thread touches them meanwhile. A pointer with length 0 is not followed, but is not NULL. A call needs at most
 * 112 KiB of stack and no heap, so a thread with 128 KiB will do.
 *
 *   map, map_len    the buffer in which the map stands; used is the map's length within it, so map_len - used bytes are free for adds
 *   journal         the journal of done edits, 16 bytes a record; all zero is an empty one. Its length is a multiple of 16, at most 65,536
 *   edit            the number that the sender gave to the edit, not 0. A number that the journal holds never acts again
 *   place           where the fault is stored in the map, for refusals 4 to 7; else 0
 *
 * The numbers: 1 length, 2 mark, 3 version or file type, 4 setup or info, 5 index block, 6 symbol block or record, 7 live slot, 8 window, 9 list too
 * short, 10 object malformed, 11 no room in the buffer or over 16,777,216 bytes, 12 slot missing or not in the state wanted, or reinstating refused, 13 journal
 * malformed or edit number 0, 14 number held by another edit, 15 journal full, 17 edit of a map of OCAD 9, 10 or 11 (right after 1 to 7; 4 is not given there).
 */
#ifndef TAFFRAIL_H
#define TAFFRAIL_H

#include <stddef.h>
#include <stdint.h>

#ifdef __cplusplus
extern "C" {
#endif

/* Whether the first `used` bytes of the buffer are a map. */
uint32_t taffrail_check(const uint8_t *map, size_t map_len, size_t used, uint32_t *place);

/* The live slots, hidden ones too, whose rectangles meet the window (0.01 mm, closed on all sides), ascending, in the first `count` entries of the list; the
 * entries behind keep what they held. 9 leaves the list alone and gives the count needed, so a list of length 0 asks how many there are. blocks: the index
 * blocks walked. */
uint32_t taffrail_search(const uint8_t *map, size_t map_len, size_t used,
                         int32_t left, int32_t bottom, int32_t right, int32_t top,
                         uint32_t *list, size_t list_len,
                         uint32_t *place, uint32_t *count, uint32_t *blocks);

/* The edits, of maps of OCAD 6, 7 and 8. before: 1 for "done before", else 0. slot and length: of a done or done-before edit, else 0; length is the map's new
 * length, to be handed to the next call as `used`. A refusal and "done before" change no byte of map and journal. */
uint32_t taffrail_add(uint8_t *map, size_t map_len, size_t used,
                      uint8_t *journal, size_t journal_len, uint32_t edit,
                      const uint8_t *object, size_t object_len,
                      uint32_t *place, uint32_t *before, uint32_t *slot, uint32_t *length);

uint32_t taffrail_remove(uint8_t *map, size_t map_len, size_t used,
                         uint8_t *journal, size_t journal_len, uint32_t edit, uint32_t at,
                         uint32_t *place, uint32_t *before, uint32_t *slot, uint32_t *length);

uint32_t taffrail_reinstate(uint8_t *map, size_t map_len, size_t used,
                            uint8_t *journal, size_t journal_len, uint32_t edit, uint32_t at,
                            uint32_t *place, uint32_t *before, uint32_t *slot, uint32_t *length);

#ifdef __cplusplus
}
#endif

#endif
