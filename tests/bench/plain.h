/* The plain judges that the benchmark compares with: same inputs, same answers, same marks. */
#ifndef PLAIN_H
#define PLAIN_H

#include <stddef.h>
#include <stdint.h>

uint64_t plain_check(const uint8_t *image, size_t image_len);

uint64_t plain_judge(const uint8_t *image, size_t image_len, const uint8_t *word, size_t word_len, uint64_t limit,
                     uint8_t *marks, size_t marks_len);

uint64_t lean_judge(const uint8_t *image, size_t image_len, const uint8_t *word, size_t word_len, uint64_t limit,
                    uint8_t *marks, size_t marks_len);

#endif
