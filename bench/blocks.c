/* AES-128 byte by byte, step by step as crates/aes has it: the measure that its speed is held to.
   200,000 blocks, each made of the one before: decrypted where standard input begins with 'd', else encrypted. */
#include <stdint.h>
#include <stdio.h>
#include <string.h>

typedef uint8_t u8;

static u8 sbox[256], inv_sbox[256];

static u8 doubled(u8 b) { return (u8)((b << 1) ^ ((b >> 7) * 0x1b)); }

static u8 times(u8 a, u8 b)
{
    u8 r = 0;
    for (; b; b >>= 1, a = doubled(a))
        if (b & 1)
            r ^= a;
    return r;
}

/* the tables, by their rule: inverse, then affine map */
static void tables(void)
{
    for (int x = 0; x < 256; x++) {
        u8 y = 1, z = 0;
        for (int k = 0; k < 254; k++)
            y = times(y, (u8)x);
        for (int i = 0; i < 8; i++) {
            int v = (y >> i) ^ (y >> (i + 4) % 8) ^ (y >> (i + 5) % 8) ^ (y >> (i + 6) % 8) ^ (y >> (i + 7) % 8) ^ (0x63 >> i);
            z |= (u8)((v & 1) << i);
        }
        sbox[x] = z;
        inv_sbox[z] = (u8)x;
    }
}

static void expand(const u8 key[16], u8 w[176])
{
    u8 rc = 1;
    memcpy(w, key, 16);
    for (int i = 4; i < 44; i++) {
        u8 t[4];
        memcpy(t, w + 4 * i - 4, 4);
        if (i % 4 == 0) {
            u8 first = t[0];
            t[0] = sbox[t[1]] ^ rc;
            t[1] = sbox[t[2]];
            t[2] = sbox[t[3]];
            t[3] = sbox[first];
            rc = doubled(rc);
        }
        for (int j = 0; j < 4; j++)
            w[4 * i + j] = w[4 * i - 16 + j] ^ t[j];
    }
}

static void add_round_key(const u8 w[176], int r, u8 s[16])
{
    for (int i = 0; i < 16; i++)
        s[i] ^= w[16 * r + i];
}

static void looked_up(const u8 table[256], u8 s[16])
{
    for (int i = 0; i < 16; i++)
        s[i] = table[s[i]];
}

static void moved(int by, u8 s[16])
{
    u8 r[16];
    for (int i = 0; i < 16; i++)
        r[i] = s[by * i % 16];
    memcpy(s, r, 16);
}

static u8 mixed(u8 a, u8 b, u8 c, u8 d) { return doubled(a ^ b) ^ (b ^ (c ^ d)); }

static void mix_columns(u8 s[16])
{
    for (int i = 0; i < 16; i += 4) {
        u8 a = s[i], b = s[i + 1], c = s[i + 2], d = s[i + 3];
        s[i] = mixed(a, b, c, d);
        s[i + 1] = mixed(b, c, d, a);
        s[i + 2] = mixed(c, d, a, b);
        s[i + 3] = mixed(d, a, b, c);
    }
}

static void inv_mix_columns(u8 s[16])
{
    for (int i = 0; i < 16; i += 4) {
        u8 u = doubled(doubled(s[i] ^ s[i + 2]));
        u8 v = doubled(doubled(s[i + 1] ^ s[i + 3]));
        u8 a = s[i] ^ u, b = s[i + 1] ^ v, c = s[i + 2] ^ u, d = s[i + 3] ^ v;
        s[i] = mixed(a, b, c, d);
        s[i + 1] = mixed(b, c, d, a);
        s[i + 2] = mixed(c, d, a, b);
        s[i + 3] = mixed(d, a, b, c);
    }
}

__attribute__((noinline)) void encrypt_under(const u8 w[176], u8 s[16])
{
    add_round_key(w, 0, s);
    for (int n = 1; n < 10; n++) {
        looked_up(sbox, s);
        moved(5, s);
        mix_columns(s);
        add_round_key(w, n, s);
    }
    looked_up(sbox, s);
    moved(5, s);
    add_round_key(w, 10, s);
}

__attribute__((noinline)) void decrypt_under(const u8 w[176], u8 s[16])
{
    add_round_key(w, 10, s);
    for (int n = 9; n > 0; n--) {
        moved(13, s);
        looked_up(inv_sbox, s);
        add_round_key(w, n, s);
        inv_mix_columns(s);
    }
    moved(13, s);
    looked_up(inv_sbox, s);
    add_round_key(w, 0, s);
}

int main(void)
{
    u8 key[16], w[176], s[16] = {0};
    int back = getchar() == 'd';
    tables();
    for (int i = 0; i < 16; i++)
        key[i] = (u8)i;
    expand(key, w);
    for (int n = 0; n < 200000; n++)
        if (back)
            decrypt_under(w, s);
        else
            encrypt_under(w, s);
    for (int i = 0; i < 16; i++)
        printf("%02x", s[i]);
    printf("\n");
    return 0;
}
