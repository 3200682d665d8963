/* The SHA-256 (FIPS 180-4) of three texts. */
#include "console.h"

static const u32 constants[64] = {
    0x428a2f98, 0x71374491, 0xb5c0fbcf, 0xe9b5dba5, 0x3956c25b, 0x59f111f1, 0x923f82a4, 0xab1c5ed5, 0xd807aa98, 0x12835b01, 0x243185be,
    0x550c7dc3, 0x72be5d74, 0x80deb1fe, 0x9bdc06a7, 0xc19bf174, 0xe49b69c1, 0xefbe4786, 0x0fc19dc6, 0x240ca1cc, 0x2de92c6f, 0x4a7484aa,
    0x5cb0a9dc, 0x76f988da, 0x983e5152, 0xa831c66d, 0xb00327c8, 0xbf597fc7, 0xc6e00bf3, 0xd5a79147, 0x06ca6351, 0x14292967, 0x27b70a85,
    0x2e1b2138, 0x4d2c6dfc, 0x53380d13, 0x650a7354, 0x766a0abb, 0x81c2c92e, 0x92722c85, 0xa2bfe8a1, 0xa81a664b, 0xc24b8b70, 0xc76c51a3,
    0xd192e819, 0xd6990624, 0xf40e3585, 0x106aa070, 0x19a4c116, 0x1e376c08, 0x2748774c, 0x34b0bcb5, 0x391c0cb3, 0x4ed8aa4a, 0x5b9cca4f,
    0x682e6ff3, 0x748f82ee, 0x78a5636f, 0x84c87814, 0x8cc70208, 0x90befffa, 0xa4506ceb, 0xbef9a3f7, 0xc67178f2};

static u32 state[8];
static u8 block[64];

static u32 turned(u32 word, int places) { return word >> places | word << (32 - places); }

static void take_block(void) {
  static u32 words[64];
  u32 v[8];
  for (int k = 0; k < 16; k++)
    words[k] = (u32)block[4 * k] << 24 | (u32)block[4 * k + 1] << 16 | (u32)block[4 * k + 2] << 8 | block[4 * k + 3];
  for (int k = 16; k < 64; k++) {
    u32 a = words[k - 15], b = words[k - 2];
    words[k] = words[k - 16] + (turned(a, 7) ^ turned(a, 18) ^ a >> 3) + words[k - 7] + (turned(b, 17) ^ turned(b, 19) ^ b >> 10);
  }
  for (int k = 0; k < 8; k++) v[k] = state[k];
  for (int k = 0; k < 64; k++) {
    u32 one = v[7] + (turned(v[4], 6) ^ turned(v[4], 11) ^ turned(v[4], 25)) + ((v[4] & v[5]) ^ (~v[4] & v[6])) + constants[k] + words[k];
    u32 two = (turned(v[0], 2) ^ turned(v[0], 13) ^ turned(v[0], 22)) + ((v[0] & v[1]) ^ (v[0] & v[2]) ^ (v[1] & v[2]));
    for (int place = 7; place > 0; place--) v[place] = v[place - 1];
    v[4] += one;
    v[0] = one + two;
  }
  for (int k = 0; k < 8; k++) state[k] += v[k];
}

static void hash(const char *text) {
  static const u32 first[8] = {0x6a09e667, 0xbb67ae85, 0x3c6ef372, 0xa54ff53a, 0x510e527f, 0x9b05688c, 0x1f83d9ab, 0x5be0cd19};
  u32 length = 0, used = 0;
  for (int k = 0; k < 8; k++) state[k] = first[k];
  while (text[length]) {
    block[used++] = (u8)text[length++];
    if (used == 64) {
      take_block();
      used = 0;
    }
  }
  block[used++] = 0x80;
  while (used != 56) {
    if (used == 64) {
      take_block();
      used = 0;
    } else {
      block[used++] = 0;
    }
  }
  for (int k = 0; k < 8; k++) block[56 + k] = k < 4 ? 0 : (u8)(length * 8 >> (56 - 8 * k));
  take_block();
}

int main(void) {
  static const char *texts[] = {"", "abc", "abcdbcdecdefdefgefghfghighijhijkijkljklmklmnlmnomnopnopq"};
  for (int k = 0; k < 3; k++) {
    hash(texts[k]);
    for (int word = 0; word < 8; word++) put_hex(state[word]);
    put_text("  ");
    put_text(texts[k]);
    put('\n');
  }
  return 0;
}
