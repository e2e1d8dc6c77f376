/* Sumbelgo for controllers in C: grey drawings, Knuth's plan, a threshold.

   Link crates/controller/out/libcontroller.a, which `rt lib` in crates/controller writes.

   A job is three bands that the caller owns, each with one entry for each square, row by row, so that the square at a row and a column has the
   place row * columns + column:

     drawing   the tones of the drawing; no function writes to it
     amounts   for an open square what there is to put out, for a fixed one its error
     codes     255 for an open square; 0, clothed, or 1, net, for a fixed one

   The library keeps nothing between calls and allocates nothing: each function takes the size, the threshold and the bands anew. A square is fixed
   with code 1 where its amount is at least the threshold `least`, and with code 0 below it; code 1 puts out 255, code 0 puts out 0.

   What a caller owes, since no proof reaches across C:
     - each pointer leads to as many entries as the length behind it says, and is not null, also where the length is 0;
     - no memory that a function writes overlaps any other that it is given;
     - nothing else writes to that memory during a call;
     - the size, the threshold and the drawing stay those that the job was opened with. Other ones do no harm to memory, but the draft is then not
       that of one drawing.
   Lengths that do not fit the size are refused, as is everything else below, and a refusal leaves all bands and outputs as they were, but for 9, for what
   sumbelgo_follow fixed before it, and for what sumbelgo_read read before it.

   Refusals, each by its number; 0 is none:
     1  the size: not 1 to 4,096 rows, 1 to 4,096 columns and at most 1,048,576 squares
     2  a band is not as long as the drawing has squares
     3  a square lies outside the drawing
     4  a square is fixed already
     5  a neighbour of lower rank is open
     6  an output is too short
     7  a record has another size, a spare bit standing, or another length than is due
     8  a standing square of a record has a lower neighbour that does not stand
     9  a code of a record is not the one that the drawing gives
    10  a square is open, where only fixed ones can be written
    11  a square has a code above 1, which a bit cannot hold
    12  a file does not begin with P2 and a separator
    13  a number is missing, malformed or above 65,535
    14  a sample is above the greatest one, or the greatest one is outside 1 to 255
   Where more than one applies, each function below says which comes first. */
#ifndef SUMBELGO_H
#define SUMBELGO_H

#include <stddef.h>
#include <stdint.h>

#ifdef __cplusplus
extern "C" {
#endif

/* A count, and the refusal's number or 0. The count is 0 where a call is refused, but for sumbelgo_follow. */
typedef struct {
    size_t count;
    uint8_t refusal;
} sumbelgo_answer;

/* Four totals, in sums that wrap at 32 bits, and the refusal's number or 0. The totals are 0 where the call is refused. */
typedef struct {
    int32_t drawing; /* the tones of the drawing */
    int32_t outputs; /* what the fixed squares put out */
    int32_t losses;  /* the errors of fixed squares with no neighbour of higher rank, which nothing takes */
    int32_t amounts; /* the amounts of the open squares */
    uint8_t refusal;
} sumbelgo_totals;

/* What sumbelgo_read answers: the drawing's size and the offset behind its last sample; or the refusal's number and the offset of the number at fault,
   the input's length where a number is missing, and 0 at 1, 6 and 12. What does not apply is 0. */
typedef struct {
    size_t rows;
    size_t columns;
    size_t end;
    size_t offset;
    uint8_t refusal;
} sumbelgo_reading;

/* Open. Answers 0, or 1, then 2. Every code is 255 and the amounts are the drawing; what the two bands held is not looked at. */
uint8_t sumbelgo_open(size_t rows, size_t columns,
                      const int32_t *drawing, size_t drawing_len,
                      int32_t *amounts, size_t amounts_len,
                      uint8_t *codes, size_t codes_len);

/* Fix: the square at a row and a column. Refuses with 1, then 2, 3, 4, 5. The count is the square's code, 0 or 1. Its code and its error are written,
   and each neighbour of higher rank has its part of the error added to its amount; nothing else changes. */
sumbelgo_answer sumbelgo_fix(size_t rows, size_t columns, int32_t least,
                             const int32_t *drawing, size_t drawing_len,
                             int32_t *amounts, size_t amounts_len,
                             uint8_t *codes, size_t codes_len,
                             size_t row, size_t column);

/* Follow: the squares at the places of a list in turn, up to the first that is refused. Refuses with 1, then 2, and then as sumbelgo_fix does with
   3, 4, 5. The count is how many were fixed, at a refusal too, and the bands are as after fixing so many. */
sumbelgo_answer sumbelgo_follow(size_t rows, size_t columns, int32_t least,
                                const int32_t *drawing, size_t drawing_len,
                                int32_t *amounts, size_t amounts_len,
                                uint8_t *codes, size_t codes_len,
                                const size_t *places, size_t places_len);

/* Finish: every open square, rank by rank. Refuses with 1, then 2. The count is how many were fixed; afterwards no square is open. */
sumbelgo_answer sumbelgo_finish(size_t rows, size_t columns, int32_t least,
                                const int32_t *drawing, size_t drawing_len,
                                int32_t *amounts, size_t amounts_len,
                                uint8_t *codes, size_t codes_len);

/* Halt: writes the record of the job to the front of `out`. Refuses with 1, then 2, 6. The count is the record's length: 4 bytes for the size, a bit
   for each square rounded up to bytes, and a byte for each fixed square. What lies behind it in `out` stays as it was. */
sumbelgo_answer sumbelgo_halt(size_t rows, size_t columns, int32_t least,
                              const int32_t *drawing, size_t drawing_len,
                              const int32_t *amounts, size_t amounts_len,
                              const uint8_t *codes, size_t codes_len,
                              uint8_t *out, size_t out_len);

/* Resume: brings back the job of a record. Refuses with 1, then 2, 7, 8, 9. The count is 0. The amounts and codes are those of the halted job; what they
   held is not looked at. At 9 they are those of a new job. */
sumbelgo_answer sumbelgo_resume(size_t rows, size_t columns, int32_t least,
                                const int32_t *drawing, size_t drawing_len,
                                int32_t *amounts, size_t amounts_len,
                                uint8_t *codes, size_t codes_len,
                                const uint8_t *saved, size_t saved_len);

/* Tally: the four totals. Refuses with 1, then 2. No band changes. */
sumbelgo_totals sumbelgo_tally(size_t rows, size_t columns, int32_t least,
                               const int32_t *drawing, size_t drawing_len,
                               const int32_t *amounts, size_t amounts_len,
                               const uint8_t *codes, size_t codes_len);

/* Losses: the place and the error of each fixed square with no neighbour of higher rank, by rising place, to the fronts of `places` and `errors`. Refuses
   with 1, then 2, then 6 where one of them is too short. The count is how many there are. What lies behind them stays as it was. */
sumbelgo_answer sumbelgo_losses(size_t rows, size_t columns, int32_t least,
                                const int32_t *drawing, size_t drawing_len,
                                const int32_t *amounts, size_t amounts_len,
                                const uint8_t *codes, size_t codes_len,
                                size_t *places, size_t places_len,
                                int32_t *errors, size_t errors_len);

/* Pack: the draft as a raw PBM (P4) to the front of `out`, a bit to a square, 1 for code 0, each row padded to a byte. Refuses with 1, then 2 where the
   codes are not as many as the squares, then 6, then 10 or 11 by the first square that is open or has a code above 1. The count is how many bytes were
   written; what lies behind them stays as it was. */
sumbelgo_answer sumbelgo_pack(size_t rows, size_t columns,
                              const uint8_t *codes, size_t codes_len,
                              uint8_t *out, size_t out_len);

/* Read: the tones of a plain PGM (P2) without comments to the front of `band`, a byte each, the samples as they stand. Refuses with 12, then 13 for a number
   before the samples, 1, 14 for the greatest sample, 6 where `band` is shorter than there are squares, and then with 13 or 14 at the first sample at
   fault; the tones before that one are in `band` then. What lies behind the tones that were read stays as it was. */
sumbelgo_reading sumbelgo_read(const uint8_t *input, size_t input_len,
                               uint8_t *band, size_t band_len);

#ifdef __cplusplus
}
#endif

#endif
