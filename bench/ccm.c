// What the scheme for the field does, in plain C and with OpenSSL, timed as ccm_bench times ours: SHA-256 and AES-256 by
// tables, one step of HKDF's expansion from kept pad states, and CCM with a zero nonce. Prints hundredths of a nanosecond.
#include <openssl/core_names.h>
#include <openssl/evp.h>
#include <openssl/hmac.h>
#include <openssl/sha.h>
#include <stdint.h>
#include <stdio.h>
#include <stdlib.h>
#include <string.h>
#include <time.h>

enum { ROUNDS = 20, CALLS = 20000, BLOCKS = 16384 };

static uint32_t load(const uint8_t *p) { return (uint32_t)p[0] << 24 | p[1] << 16 | p[2] << 8 | p[3]; }
static void store(uint8_t *p, uint32_t x) { p[0] = x >> 24; p[1] = x >> 16; p[2] = x >> 8; p[3] = x; }
static uint32_t ror(uint32_t x, int n) { return x >> n | x << (32 - n); }

// ---- AES-256 by four tables, which are computed at start
static uint8_t S[256];
static uint32_t T0[256], T1[256], T2[256], T3[256];

static uint8_t times(uint8_t a, uint8_t b) {
    uint8_t r = 0;
    for (; b; b >>= 1, a = (uint8_t)(a << 1 ^ (a >> 7) * 0x1b)) if (b & 1) r ^= a;
    return r;
}

static void tables(void) {
    for (int x = 0; x < 256; x++) {
        uint8_t y = 0, s = 0x63;
        for (int c = 1; c < 256; c++) if (times(x, c) == 1) y = c;
        for (int k = 0; k < 5; k++) s ^= (uint8_t)(y << k | y >> (8 - k));
        S[x] = s;
        T0[x] = (uint32_t)times(s, 2) << 24 | s << 16 | s << 8 | times(s, 3);
        T1[x] = ror(T0[x], 8), T2[x] = ror(T0[x], 16), T3[x] = ror(T0[x], 24);
    }
}

#define SUB(a, b, c, d) ((uint32_t)S[(a) >> 24] << 24 | S[(b) >> 16 & 255] << 16 | S[(c) >> 8 & 255] << 8 | S[(d) & 255])
#define MIX(a, b, c, d) (T0[(a) >> 24] ^ T1[(b) >> 16 & 255] ^ T2[(c) >> 8 & 255] ^ T3[(d) & 255])

static void expand_key(uint32_t w[60], const uint8_t key[32]) {
    for (int i = 0; i < 8; i++) w[i] = load(key + 4 * i);
    for (int i = 8; i < 60; i++) {
        uint32_t t = w[i - 1];
        if (i % 8 == 0) t = ror(t, 24), t = SUB(t, t, t, t) ^ 1u << (i / 8 + 23);
        else if (i % 8 == 4) t = SUB(t, t, t, t);
        w[i] = w[i - 8] ^ t;
    }
}

static __attribute__((noinline)) void encrypt(const uint32_t *w, const uint8_t in[16], uint8_t out[16]) {
    uint32_t a = load(in) ^ w[0], b = load(in + 4) ^ w[1], c = load(in + 8) ^ w[2], d = load(in + 12) ^ w[3];
    for (int n = 1; n < 14; n++) {
        w += 4;
        uint32_t e = MIX(a, b, c, d) ^ w[0], f = MIX(b, c, d, a) ^ w[1], g = MIX(c, d, a, b) ^ w[2], h = MIX(d, a, b, c) ^ w[3];
        a = e, b = f, c = g, d = h;
    }
    w += 4;
    store(out, SUB(a, b, c, d) ^ w[0]), store(out + 4, SUB(b, c, d, a) ^ w[1]);
    store(out + 8, SUB(c, d, a, b) ^ w[2]), store(out + 12, SUB(d, a, b, c) ^ w[3]);
}

// ---- SHA-256
static uint32_t K[64], START[8];

static void constants(void) {
    int count = 0;
    for (uint32_t p = 2; count < 64; p++) {
        int prime = 1;
        for (uint32_t d = 2; d < p; d++) if (p % d == 0) prime = 0;
        if (!prime) continue;
        for (int e = 2; e <= 3; e++) {
            unsigned __int128 c = 0;
            for (int bit = 35; bit >= 0; bit--) {
                unsigned __int128 x = c | (unsigned __int128)1 << bit, n = (unsigned __int128)p << (32 * e);
                if ((e == 2 ? x * x : x * x * x) <= n) c = x;
            }
            if (e == 3) K[count] = (uint32_t)c;
            else if (count < 8) START[count] = (uint32_t)c;
        }
        count++;
    }
}

static __attribute__((noinline)) void compress(uint32_t v[8], const uint8_t *block) {
    uint32_t w[64];
    for (int i = 0; i < 16; i++) w[i] = load(block + 4 * i);
    for (int t = 16; t < 64; t++)
        w[t] = (ror(w[t - 2], 17) ^ ror(w[t - 2], 19) ^ w[t - 2] >> 10) + w[t - 7]
             + (ror(w[t - 15], 7) ^ ror(w[t - 15], 18) ^ w[t - 15] >> 3) + w[t - 16];
    uint32_t a = v[0], b = v[1], c = v[2], d = v[3], e = v[4], f = v[5], g = v[6], h = v[7];
    for (int i = 0; i < 64; i++) {
        uint32_t t1 = h + (ror(e, 6) ^ ror(e, 11) ^ ror(e, 25)) + ((e & f) ^ (~e & g)) + K[i] + w[i];
        uint32_t t2 = (ror(a, 2) ^ ror(a, 13) ^ ror(a, 22)) + ((a & b) ^ (a & c) ^ (b & c));
        h = g, g = f, f = e, e = d + t1, d = c, c = b, b = a, a = t1 + t2;
    }
    v[0] += a, v[1] += b, v[2] += c, v[3] += d, v[4] += e, v[5] += f, v[6] += g, v[7] += h;
}

static void finish(const uint32_t from[8], const uint8_t *tail, size_t n, uint64_t total, uint8_t out[32]) {
    uint32_t v[8];
    uint8_t block[64] = {0};
    memcpy(v, from, sizeof v), memcpy(block, tail, n);
    block[n] = 0x80;
    for (int i = 0; i < 8; i++) block[56 + i] = (uint8_t)(total * 8 >> (56 - 8 * i));
    compress(v, block);
    for (int i = 0; i < 8; i++) store(out + 4 * i, v[i]);
}

typedef struct { uint32_t inner[8], outer[8]; } Secret;

static void secret_of(Secret *s, const uint8_t key[32]) {
    uint8_t block[64];
    for (int pad = 0; pad < 2; pad++) {
        for (int i = 0; i < 64; i++) block[i] = (i < 32 ? key[i] : 0) ^ (pad ? 0x5c : 0x36);
        memcpy(pad ? s->outer : s->inner, START, sizeof START);
        compress(pad ? s->outer : s->inner, block);
    }
}

static void derive(const Secret *s, const uint8_t nonce[16], uint8_t key[32]) {
    uint8_t tail[32];
    memcpy(tail, nonce, 16), tail[16] = 1;
    finish(s->inner, tail, 17, 81, key);
    memcpy(tail, key, 32);
    finish(s->outer, tail, 32, 96, key);
}

// ---- CCM
static void ccm(const uint32_t w[60], const uint8_t *from, size_t n, uint8_t *to, const uint8_t *content, uint8_t tag[16]) {
    uint8_t head[16] = {2}, block[16], x[16];
    for (size_t i = 0; i < n; i++) {
        if (i % 16 == 0) head[15] = (uint8_t)(i / 16 + 1), encrypt(w, head, block);
        to[i] = from[i] ^ block[i % 16];
    }
    memset(head, 0, 16), head[0] = 58, head[15] = (uint8_t)n;
    encrypt(w, head, x);
    for (size_t at = 0; at < n; at += 16) {
        for (size_t j = 0; j < 16 && at + j < n; j++) x[j] ^= content[at + j];
        encrypt(w, x, x);
    }
    memset(head, 0, 16), head[0] = 2;
    encrypt(w, head, block);
    for (int j = 0; j < 16; j++) tag[j] = x[j] ^ block[j];
}

static void seal(const Secret *s, const uint8_t nonce[16], const uint8_t *content, size_t n, uint8_t *out) {
    uint8_t key[32];
    uint32_t w[60];
    derive(s, nonce, key), expand_key(w, key);
    ccm(w, content, n, out, content, out + n);
}

static int open_sealed(const Secret *s, const uint8_t nonce[16], const uint8_t *sealed, size_t n, uint8_t *content) {
    uint8_t key[32], tag[16], differ = 0;
    uint32_t w[60];
    derive(s, nonce, key), expand_key(w, key);
    ccm(w, sealed, n, content, content, tag);
    for (int j = 0; j < 16; j++) differ |= tag[j] ^ sealed[n + j];
    return differ == 0;
}

// ---- the same with OpenSSL
static EVP_CIPHER *CCM;
static EVP_MAC_CTX *MAC;

static void ssl_derive(const uint8_t nonce[16], uint8_t key[32]) {
    uint8_t info[17];
    size_t len;
    memcpy(info, nonce, 16), info[16] = 1;
    EVP_MAC_CTX *mac = EVP_MAC_CTX_dup(MAC);
    EVP_MAC_update(mac, info, 17), EVP_MAC_final(mac, key, &len, 32), EVP_MAC_CTX_free(mac);
}

static int ssl_ccm(EVP_CIPHER_CTX *c, int sealing, const uint8_t nonce[16], const uint8_t *in, int n, uint8_t *out, uint8_t *tag) {
    static const uint8_t zero[12];
    uint8_t key[32];
    int len;
    ssl_derive(nonce, key);
    EVP_CipherInit_ex(c, CCM, 0, 0, 0, sealing);
    EVP_CIPHER_CTX_ctrl(c, EVP_CTRL_AEAD_SET_IVLEN, 12, 0);
    EVP_CIPHER_CTX_ctrl(c, EVP_CTRL_AEAD_SET_TAG, 16, sealing ? 0 : tag);
    EVP_CipherInit_ex(c, 0, 0, key, zero, sealing);
    EVP_CipherUpdate(c, 0, &len, 0, n);
    int good = EVP_CipherUpdate(c, out, &len, in, n);
    if (sealing) EVP_CIPHER_CTX_ctrl(c, EVP_CTRL_AEAD_GET_TAG, 16, tag);
    return good == 1;
}

static double now(void) {
    struct timespec t;
    clock_gettime(CLOCK_MONOTONIC, &t);
    return t.tv_sec * 1e9 + t.tv_nsec;
}

#define TIME(best, ...) do { double from = now(); __VA_ARGS__; from = now() - from; if (from < best) best = from; } while (0)

int main(void) {
    tables(), constants();
    static uint8_t message[64 * BLOCKS];
    uint8_t key[32], secret[32], block[16], nonce[16], out[80], first[80], content[96], digest[32];
    uint32_t w[60], v[8];
    double b[3] = {1e18, 1e18, 1e18}, o[2] = {1e18, 1e18};
    Secret s;
    memset(key, 1, 32), expand_key(w, key), memset(secret, 2, 32), secret_of(&s, secret), memset(message, 3, sizeof message);
    OSSL_PARAM params[] = {OSSL_PARAM_construct_utf8_string(OSSL_MAC_PARAM_DIGEST, "SHA256", 0), OSSL_PARAM_construct_end()};
    MAC = EVP_MAC_CTX_new(EVP_MAC_fetch(0, "HMAC", 0)), CCM = EVP_CIPHER_fetch(0, "AES-256-CCM", 0);
    EVP_MAC_init(MAC, secret, 32, params);
    for (int r = 0; r < ROUNDS; r++) {
        memset(block, 4, 16);
        TIME(b[0], for (int i = 0; i < CALLS; i++) encrypt(w, block, block));
        memcpy(v, START, sizeof v);
        TIME(b[1], for (int i = 0; i < BLOCKS; i++) compress(v, message + 64 * i));
        TIME(o[0], SHA256(message, sizeof message, digest));
        memset(nonce, 5, 16);
        TIME(b[2], for (int i = 0; i < CALLS; i++) derive(&s, nonce, key), memcpy(nonce, key, 16));
        int c = nonce[0];
        memset(nonce, 5, 16);
        TIME(o[1], for (int i = 0; i < CALLS; i++) ssl_derive(nonce, key), memcpy(nonce, key, 16));
        if (c != nonce[0]) return puts("C and OpenSSL differ"), 1;
    }
    printf("C block %.0f to %d\n", b[0] * 100 / CALLS, block[0]);
    printf("C compression %.0f, OpenSSL %.0f to %d\n", b[1] * 100 / BLOCKS, o[0] * 100 / BLOCKS, digest[0]);
    printf("C derivation %.0f, OpenSSL %.0f to %d\n", b[2] * 100 / CALLS, o[1] * 100 / CALLS, nonce[0]);
    memset(secret, 6, 32), secret_of(&s, secret), EVP_MAC_init(MAC, secret, 32, params);
    EVP_CIPHER_CTX *ctx = EVP_CIPHER_CTX_new();
    for (int k = 0; k < 3; k++) {
        int n = (int[]){14, 33, 49}[k], good = 1;
        double t[4] = {1e18, 1e18, 1e18, 1e18};
        memset(content, 8, 96), memset(nonce, 7, 16), seal(&s, nonce, content, n, first);
        for (int r = 0; r < ROUNDS; r++) {
            memset(content, 8, 96), memset(nonce, 7, 16);
            TIME(t[0], for (int i = 0; i < CALLS; i++) seal(&s, nonce, content, n, out), memcpy(nonce, out, 16));
            int c = out[0];
            memset(nonce, 7, 16);
            TIME(t[1], for (int i = 0; i < CALLS; i++) good &= ssl_ccm(ctx, 1, nonce, content, n, out, out + n), memcpy(nonce, out, 16));
            good &= c == out[0];
            memset(nonce, 7, 16);
            TIME(t[2], for (int i = 0; i < CALLS; i++) good &= open_sealed(&s, nonce, first, n, content));
            TIME(t[3], for (int i = 0; i < CALLS; i++) good &= ssl_ccm(ctx, 0, nonce, first, n, content, first + n));
        }
        if (!good) return puts("C and OpenSSL differ"), 1;
        printf("C seal %d %.0f, OpenSSL %.0f to %d\n", n, t[0] * 100 / CALLS, t[1] * 100 / CALLS, out[0]);
        printf("C open %d %.0f, OpenSSL %.0f\n", n, t[2] * 100 / CALLS, t[3] * 100 / CALLS);
    }
    return 0;
}
