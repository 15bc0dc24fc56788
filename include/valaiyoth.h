/* Valaiyoth for C. Every answer is one number, and zero is never returned. The dock's archive has the checker and the judge,
 * the office's archive the compiler.
 *
 * What a caller owes: each pointer is valid for its length (any pointer goes with length 0, but let it not be NULL),
 * and a buffer that is written, the marks or the compiler's image, overlaps no other. Nothing else is asked: no address
 * need be aligned, every text, image, word, limit and length is answered, and a refusal changes no byte.
 *
 * What a caller gets: nothing is kept between calls and nothing is written but that buffer, so that calls with buffers
 * of their own may run at the same time. There is no heap and no static data; memset, memcpy or memcmp may be needed from
 * the C library.
 */
#ifndef VALAIYOTH_H
#define VALAIYOTH_H

#include <stddef.h>
#include <stdint.h>

#ifdef __cplusplus
extern "C" {
#endif

/* The working room of the judge. Its old contents do not matter. */
#define VALAIYOTH_MARKS 65536

/* An answer of the judge, and a refusal of the compiler, is KIND x 1,000,000 + VALUE. */
#define VALAIYOTH_KIND(answer) ((uint64_t)(answer) / 1000000)
#define VALAIYOTH_VALUE(answer) ((uint64_t)(answer) % 1000000)

/* Kinds 1 to 3 of the judge are verdicts, and their value is the number of situations reached, 1 to 262,144. Only 1 grants. */
#define VALAIYOTH_YES 1
#define VALAIYOTH_NO 2
#define VALAIYOTH_LIMIT_MET 3

/* Kinds from 21 on are refusals of the judge, in this order, and their value is the place. */
#define VALAIYOTH_IMAGE_MALFORMED 21 /* the image is not well formed; place 0 */
#define VALAIYOTH_WORD_TOO_LONG 22   /* the word is over 62 bytes; place 0 */
#define VALAIYOTH_BYTE_OUTSIDE 23    /* a byte outside the alphabet; place: its index, the first */
#define VALAIYOTH_LIMIT_TOO_HIGH 24  /* the limit is over 31; place 0 */
#define VALAIYOTH_MARKS_LENGTH 25    /* the mark buffer is not 65,536 bytes long; place 0 */

/* 1 for a well-formed image, 21000000 for any other. */
uint64_t valaiyoth_check(const uint8_t *image, size_t image_len);

/* Judges a word with a table's image, at a limit of the counter, 0 to 31. After a verdict the first 32,768 mark bytes hold
 * one bit for each situation, set if reached, at index (state x 64 + cell) x 32 + counter: bit index % 8, the least being 0,
 * of byte index / 8. The rest is zero. Where several refusals hold, the lowest number is given. */
uint64_t valaiyoth_judge(const uint8_t *image, size_t image_len, const uint8_t *word, size_t word_len, uint64_t limit,
                         uint8_t *marks, size_t marks_len);

/* The room that the compiler asks for: the longest image has so many bytes. */
#define VALAIYOTH_IMAGE 8246

/* Refusals of the compiler. Their value is the place, an offset into the text. Where several hold, the order is 1, 2, whichever
 * of 3 to 9 comes first in the text, 10, 11. */
#define VALAIYOTH_TEXT_TOO_LONG 1    /* the text is over 4,096 bytes; place 0 */
#define VALAIYOTH_IMAGE_TOO_SHORT 2  /* the image buffer is under 8,246 bytes; place 0 */
#define VALAIYOTH_NO_TOKEN 3         /* no token starts here, or it is broken; place: its first byte */
#define VALAIYOTH_NOT_HERE 4         /* a token no program can have here, or the text ends early; its first byte, or the length */
#define VALAIYOTH_LETTER_AGAIN 5     /* a letter of the alphabet is repeated, or a 17th; that letter */
#define VALAIYOTH_LETTER_OUTSIDE 6   /* a letter in a condition is outside the alphabet; that letter */
#define VALAIYOTH_NUMBER_OUTSIDE 7   /* a number is out of its range or form; the number */
#define VALAIYOTH_TOO_DEEP 8         /* more than 16 are open; that brace, parenthesis or negation */
#define VALAIYOTH_NINTH_ARM 9        /* a branch has a ninth arm; its `also` */
#define VALAIYOTH_TOO_MANY_STATES 10 /* over 128 states; the text's length */
#define VALAIYOTH_TOO_MANY_ROWS 11   /* over 1,024 rows; the text's length */

/* Compiles a rule's text into a table's image. The answer is the image's length, 39 to 8,246, and so many bytes are written,
 * no others; or a refusal, 1,000,000 or more. */
uint64_t valaiyoth_compile(const uint8_t *text, size_t text_len, uint8_t *image, size_t image_len);

#ifdef __cplusplus
}
#endif

#endif
