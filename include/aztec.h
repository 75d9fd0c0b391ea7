/* Aztec Code (ISO/IEC 24778): the proved library's interface. Link crates/aztec_c/out/libaztec_c.a, which `rt lib` writes in
   crates/aztec_c. A pointer with its length is a buffer of that many elements; it is never null, and a buffer that is written
   overlaps no other. Every call ends, and touches nothing outside the buffers it was lent. No call needs more than 256 KiB of stack. */
#ifndef AZTEC_H
#define AZTEC_H

#include <stddef.h>
#include <stdint.h>

#ifdef __cplusplus
extern "C" {
#endif

/* The stack that a call needs, in bytes below its caller. `harness/target/release/harness stack` measures it. */
#define AZTEC_CORRECT_STACK 90112
#define AZTEC_ENCODE_STACK 81920
#define AZTEC_DECODE_STACK 172032

/* The Reed-Solomon corrector. word_size is 4, 6, 8, 10 or 12 bits; the last check_words words of a block are its check words; a mark
   is 0 for a word that was read and 1 for one that was not, whose value is ignored.
   0: corrected holds the one valid block that differs from the words read in r places, with e words marked and 2r + e at most
      check_words.
   31: the three buffers differ in length. 32: another word size, no word or more than 2^word_size - 1, no check word, or as many as
   words or more. 33: a mark above 1, or an unmarked word of 2^word_size or more. 34: there is no such block.
   A lower number comes first, and a number other than 0 leaves corrected as it was. */
uint32_t aztec_correct(uint32_t word_size, size_t check_words,
                       const uint16_t *received, size_t received_length,
                       const uint8_t *marks, size_t marks_length,
                       uint16_t *corrected, size_t corrected_length);

/* What the encoder answers. A number other than 0 comes with zeros in the other fields. */
struct aztec_encoded {
  uint32_t number;
  uint32_t shape;       /* 1 to 4 for compact, 1 to 4 layers; 5 to 36 for full, 1 to 32 layers */
  uint32_t side;        /* modules along an edge */
  uint32_t data_words;
  uint32_t check_words;
};

/* The encoder. percent is the least share of check words, 5 to 95. grid has one byte a module, row by row from the top.
   0: the first side * side bytes of grid are the symbol, 0 light and 1 dark, and the rest is as it was.
   1: the message is empty. 2: percent is outside 5 to 95. 3: the message fits no shape. 4: grid is shorter than side * side; 151 * 151
   is enough for every message. A lower number comes first, and a number other than 0 leaves grid as it was. */
struct aztec_encoded aztec_encode(const uint8_t *message, size_t message_length, uint32_t percent,
                                  uint8_t *grid, size_t grid_length);

/* What the decoder answers. A number other than 0 comes with zeros in the other fields. */
struct aztec_decoded {
  uint32_t number;
  uint32_t length;      /* bytes of the message; 0 is possible */
  uint32_t shape;       /* as in aztec_encoded; full with 1 to 3 layers, 5 to 7, is read too */
  uint32_t position;    /* clockwise quarter turns, 0 to 3, plus 4 if the symbol was mirrored left to right before them */
  uint32_t unread;      /* words of the block with an unread module */
  uint32_t wrong;       /* words of the block that were fully read and differ from the block found */
};

/* The decoder. grid has one byte a module, row by row from the top: 0 light, 1 dark, 2 unread.
   0: the first length bytes of message are the message, and the rest is as it was.
   11: side is no shape's. 12: grid_length is not side * side. 13: a module above 2. 14: no single best position with 9 of the 12
   orientation modules. 15: mode message beyond correction. 16: it names a shape of another side, or leaves fewer than 3 check words.
   17: block beyond correction. 18: a corrected data word of all 0s or all 1s. 19: FLG, or a shift before a whole code that is no
   character or pair. 20: an item cut short. 21: the buffer is shorter than the message; 19968 bytes are enough for every symbol.
   A lower number comes first, but 19 and 20 go by the first item at fault, and a number other than 0 leaves message as it was. */
struct aztec_decoded aztec_decode(const uint8_t *grid, size_t grid_length, uint32_t side,
                                  uint8_t *message, size_t message_length);

#ifdef __cplusplus
}
#endif

#endif
