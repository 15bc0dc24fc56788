/* What a dock does with a rule and a record: docs/FIRMWARE.md's example, with the rule of document 01 that accepts balanced
 * borrows and returns (the image stands in ../dock/images.h). */
#include "valaiyoth.h"
#include <stdio.h>
#include <string.h>

#include "images.h"

static uint8_t marks[VALAIYOTH_MARKS];

/* CRC-32. It changes with every flip of one bit or two in an image. */
uint32_t checksum(const uint8_t *bytes, size_t length) {
  uint32_t sum = 0xFFFFFFFF;
  while (length-- > 0) {
    sum ^= *bytes++;
    for (int bit = 0; bit < 8; bit++)
      sum = sum >> 1 ^ (sum & 1 ? 0xEDB88320 : 0);
  }
  return ~sum;
}

/* sum is what checksum gave on the day that the rule arrived and valaiyoth_check took it. */
int grants(const uint8_t *rule, size_t rule_len, uint32_t sum, const uint8_t *record, size_t record_len) {
  if (checksum(rule, rule_len) != sum)
    return 0; /* and report the dock: its rule has changed */
  uint64_t answer = valaiyoth_judge(rule, rule_len, record, record_len, 31, marks, sizeof marks);
  return VALAIYOTH_KIND(answer) == VALAIYOTH_YES;
}

int main(void) {
  static const struct {
    const char *record;
    size_t length;
    int granted;
  } cases[] = {{"", 0, 1}, {"ur", 2, 1}, {"u", 1, 0}, {"ru", 2, 0}, {"x", 1, 0}};
  const uint8_t *u = (const uint8_t *)"u";
  uint8_t rule[sizeof image_bal];
  uint32_t sum = checksum(image_bal, sizeof image_bal);
  size_t i, flip, taken = 0;
  if (valaiyoth_check(image_bal, sizeof image_bal) != 1)
    return 1;
  for (i = 0; i < sizeof cases / sizeof cases[0]; i++)
    if (grants(image_bal, sizeof image_bal, sum, (const uint8_t *)cases[i].record, cases[i].length) != cases[i].granted) {
      printf("the record '%s' was not judged as it should be\n", cases[i].record);
      return 1;
    }
  /* a rule that is cut grants nothing */
  if (grants(image_bal, sizeof image_bal - 1, sum, (const uint8_t *)"ur", 2))
    return 1;
  /* what docs/FIRMWARE.md says of flipped bits: many leave a well-formed image, one makes a yes of a no; the checksum sees each */
  for (flip = 0; flip < 8 * sizeof rule; flip++) {
    memcpy(rule, image_bal, sizeof rule);
    rule[flip / 8] ^= 1 << flip % 8;
    taken += valaiyoth_check(rule, sizeof rule) == 1;
    if (checksum(rule, sizeof rule) == sum || grants(rule, sizeof rule, sum, u, 1))
      return 1;
  }
  memcpy(rule, image_bal, sizeof rule);
  rule[22] ^= 1 << 2;
  if (8 * sizeof rule != 1536 || taken != 434 ||
      VALAIYOTH_KIND(valaiyoth_judge(rule, sizeof rule, u, 1, 31, marks, sizeof marks)) != VALAIYOTH_YES) {
    printf("%zu of %zu flipped bits leave a well-formed image\n", taken, 8 * sizeof rule);
    return 1;
  }
  /* an empty record at no address, and an image at none */
  if (valaiyoth_check(NULL, 0) != 21000000 || !grants(image_bal, sizeof image_bal, sum, NULL, 0))
    return 1;
  puts("the firmware's example: a yes grants, and nothing else does; a flipped bit grants nothing");
  return 0;
}
