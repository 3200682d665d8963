/* The CRC-32 of IEEE 802.3 of three texts, bit by bit. */
#include "console.h"

static u32 crc(const char *text) {
  u32 sum = ~0u;
  while (*text) {
    sum ^= (u8)*text++;
    for (int bit = 0; bit < 8; bit++) sum = sum >> 1 ^ (0xedb88320u & -(sum & 1));
  }
  return ~sum;
}

int main(void) {
  static const char *texts[] = {"", "123456789", "hello, world"};
  for (int k = 0; k < 3; k++) {
    put_text("crc32(\"");
    put_text(texts[k]);
    put_text("\") = ");
    put_hex(crc(texts[k]));
    put('\n');
  }
  return 0;
}
