/* Endgame tablebases of Nine Men's Morris: the calls for C.
 *
 * Link with libmorris_c.a, which `rt lib` in crates/morris_c writes. Every call answers on every value of its arguments: it returns 0 and its result,
 * or the number of the first refusal that the arguments meet, and then every value behind a pointer is 0 and every lent buffer is as it was
 * (after 13 the entries to be filled are void).
 *
 * What the caller answers for: each pointer is not null and points to as many elements as the length beside it says (one, where there is no
 * length), and no two of them overlap. Nothing is kept after a call, and nothing is allocated; calls on different buffers may run at the same time.
 *
 * A board is 8 * rings bytes, point 0 first: 0 vacant, 1 the side to move (the mover), 2 the other side (the opponent). Point 8 * ring + place;
 * ring 0 is the outermost; places 0 to 7 clockwise, even places corners; on three rings, points 0 to 7 are a7, d7, g7, g4, g1, d1, a1, a4. A move
 * number is 1024 * from + 32 * to + removed, with 31 for no removal. A point set is a number whose binary digit p says whether point p is in it.
 *
 * The calls that go by moves or by entries take the rules edition, 1 or 2. In both a closed mill removes one opposing stone that stands outside any
 * mill. Where all opposing stones stand in mills, it removes any one of them in edition 1, and nothing in edition 2. An entry means the outcome under
 * the edition with which its tablebase was filled; reading it under another edition carries no claim.
 *
 * Refusals:
 *    1  rings not 1, 2 or 3                        8  not a listed move
 *    2  length of the board (or frame) wrong       9  best move sought, mover blocked
 *    3  a value above 2                           10  limit above 65533
 *    4  a count outside 3 to 9, or a sum above    11  k outside 3 to 9, or a count above k
 *       the points                                12  void in the entry looked up, in a successor of a position
 *    5  rank not below the size of the table          whose best move is sought, or in the lower tables of a pair
 *    6  target board or tablebase length wrong    13  a forced end beyond the limit
 *    7  move list or frame target too short       14  a frame empty, over 64 characters, of odd length, or with a
 *                                                     character outside 0-9 a-f
 *                                                 15  unreachable position: three rings, one side with nine stones and
 *                                                     the other with a full mill; under edition 1
 *                                                 20  edition not 1 or 2
 */
#ifndef MORRIS_H
#define MORRIS_H

#include <stddef.h>
#include <stdint.h>

/* Entries: these two, else plies to the end; odd is won for the mover, even is lost. */
#define MORRIS_DRAW 65535
#define MORRIS_VOID 65534

/* No position has more moves. */
#define MORRIS_MOVES_MAX 324

/* A frame of three rings has this many characters; those of one and two rings have 6 and 10. */
#define MORRIS_FRAME_MAX 14

#ifdef __cplusplus
extern "C" {
#endif

/* The rank of a board among those of its counts. Refusals 1, 2, 3, 4. */
uint8_t morris_rank(uint8_t rings, const uint8_t *board, size_t board_len, uint64_t *rank);

/* Writes the board of a rank among those of the given counts over the target, of 8 * rings bytes. Refusals 1, 4, 6, 5. */
uint8_t morris_unrank(uint8_t rings, uint8_t mover, uint8_t opponent, uint64_t rank, uint8_t *target, size_t target_len);

/* Lists a board's moves under an edition at the start of the list, those with a removal by rising number, then the others by rising number, and
 * says how many; the rest of the list keeps its contents. Refusals 1, 20, 2, 3, 4, 7. */
uint8_t morris_moves(uint8_t rings, uint8_t edition, const uint8_t *board, size_t board_len, uint16_t *moves, size_t moves_len, size_t *count);

/* Writes the board after a move that is listed under an edition over the target, of 8 * rings bytes; the sides have changed names.
 * Refusals 1, 20, 2, 3, 4, 6, 8. */
uint8_t morris_make_move(uint8_t rings, uint8_t edition, const uint8_t *board, size_t board_len, uint16_t number, uint8_t *target, size_t target_len);

/* The rank of the representative of a board's class under turns, mirrors and reversed rings. Refusals 1, 2, 3, 4. */
uint8_t morris_representative(uint8_t rings, const uint8_t *board, size_t board_len, uint64_t *rank);

/* Fills the tablebase of largest count k under an edition: at each place the plies to the end, or draw. Refusals 1, 20, 11, 6, 10, 13. */
uint8_t morris_fill(uint8_t rings, uint8_t edition, uint8_t k, uint32_t limit, uint16_t *tablebase, size_t tablebase_len);

/* Fills the tables (mover, opponent) and (opponent, mover) under an edition over the entries of their lower tables.
 * Refusals 1, 20, 4, 11, 6, 10, 12, 13. */
uint8_t morris_fill_pair(uint8_t rings, uint8_t edition, uint8_t mover, uint8_t opponent, uint8_t k, uint32_t limit, uint16_t *tablebase,
                         size_t tablebase_len);

/* The entry of a board in a tablebase of largest count k, as it was filled. Refusals 1, 20, 2, 3, 4, 15, 11, 6, 12. */
uint8_t morris_lookup(uint8_t rings, uint8_t edition, const uint8_t *board, size_t board_len, uint8_t k, const uint16_t *tablebase, size_t tablebase_len,
                      uint16_t *entry);

/* The best move of a board, and the entry of the successor that it leads to: the first of those listed under an edition among quickest win, else a
 * draw, else longest loss. Refusals 1, 20, 2, 3, 4, 15, 11, 6, 9, 12. */
uint8_t morris_best_move(uint8_t rings, uint8_t edition, const uint8_t *board, size_t board_len, uint8_t k, const uint16_t *tablebase,
                         size_t tablebase_len, uint16_t *number, uint16_t *entry);

/* Whether every entry of a tablebase of largest count k, whoever filled it, is right under an edition by the entries of the successors: passed 1 and
 * index 0, or passed 0 and the first index, counted in the tablebase, whose entry is not. Right is 0 for a blocked mover; odd n with a quickest lost
 * successor of n - 1; even n above 0 with all successors won and the slowest at n - 1; a draw with no lost successor and at least one that is not
 * won. Void is never right, and a void successor is neither won nor lost; a side with two stones counts as lost in 0. A tablebase that passes holds
 * the true outcomes under that edition. Refusals 1, 20, 11, 6. */
uint8_t morris_check(uint8_t rings, uint8_t edition, uint8_t k, const uint16_t *tablebase, size_t tablebase_len, uint8_t *passed, uint64_t *index);

/* Reads a frame: the rings, the mover's points and the opponent's points, as point sets. Refusals 14, 1, 2, 3, 4. */
uint8_t morris_read_frame(const uint8_t *frame, size_t frame_len, uint8_t *rings, uint32_t *mover, uint32_t *opponent);

/* Writes rings and a board as a frame over the start of the target, and says how many characters; there is no zero after them.
 * Refusals 1, 2, 3, 4, 7. */
uint8_t morris_write_frame(uint8_t rings, const uint8_t *board, size_t board_len, uint8_t *frame, size_t frame_len, size_t *written);

#ifdef __cplusplus
}
#endif

#endif
