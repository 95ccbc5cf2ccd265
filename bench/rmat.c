/* Writes the edge text that a scale, a number of edges and a number name: the text that the command `bench` reads.
   usage: rmat SCALE EDGES NUMBER. The rule stands in docs/FORMATS.md, "The made text and its summary". */
#include <inttypes.h>
#include <stdint.h>
#include <stdio.h>
#include <stdlib.h>

enum { BLOCK_WORDS = 16, DOUBLE_ROUNDS = 4, MOST_SCALE = 22 };

/* The words of ChaCha8, block by block. */
struct words {
    uint32_t input[BLOCK_WORDS];
    uint32_t block[BLOCK_WORDS];
    int given;
};

static uint32_t rotated(uint32_t word, int count)
{
    return word << count | word >> (32 - count);
}

static void quarter_round(uint32_t *w, int a, int b, int c, int d)
{
    w[a] += w[b];
    w[d] = rotated(w[d] ^ w[a], 16);
    w[c] += w[d];
    w[b] = rotated(w[b] ^ w[c], 12);
    w[a] += w[b];
    w[d] = rotated(w[d] ^ w[a], 8);
    w[c] += w[d];
    w[b] = rotated(w[b] ^ w[c], 7);
}

static void make_block(struct words *words)
{
    uint32_t *w = words->block;
    for (int i = 0; i < BLOCK_WORDS; i++) {
        w[i] = words->input[i];
    }
    for (int i = 0; i < DOUBLE_ROUNDS; i++) {
        for (int column = 0; column < 4; column++) {
            quarter_round(w, column, 4 + column, 8 + column, 12 + column);
        }
        for (int column = 0; column < 4; column++) {
            quarter_round(w, column, 4 + (column + 1) % 4, 8 + (column + 2) % 4, 12 + (column + 3) % 4);
        }
    }
    for (int i = 0; i < BLOCK_WORDS; i++) {
        w[i] += words->input[i];
    }
    words->input[12]++;
    words->input[13] += words->input[12] == 0;
    words->given = 0;
}

/* The key is the number's eight bytes, high byte first, and zeros; ChaCha takes words low byte first. */
static void begin(struct words *words, uint64_t number)
{
    static const uint32_t constants[4] = {0x61707865, 0x3320646e, 0x79622d32, 0x6b206574};
    uint8_t key[8];
    for (int i = 0; i < 8; i++) {
        key[i] = (uint8_t)(number >> (56 - 8 * i));
    }
    for (int i = 0; i < BLOCK_WORDS; i++) {
        words->input[i] = i < 4 ? constants[i] : 0;
    }
    for (int i = 0; i < 8; i++) {
        words->input[4 + i / 4] |= (uint32_t)key[i] << (8 * (i % 4));
    }
    words->given = BLOCK_WORDS;
}

static uint32_t next_word(struct words *words)
{
    if (words->given == BLOCK_WORDS) {
        make_block(words);
    }
    return words->block[words->given++];
}

static void write_edge(struct words *words, int scale)
{
    uint32_t src = 0;
    uint32_t dst = 0;
    for (int bit = 0; bit < scale; bit++) {
        uint32_t y = next_word(words) % 100;
        src = 2 * src + (y >= 76);
        dst = 2 * dst + ((y >= 57 && y < 76) || y >= 95);
    }
    printf("%" PRIu32 " %" PRIu32 " %" PRIu32 "\n", src, dst, 1 + next_word(words) % 4);
}

int main(int count, char **arguments)
{
    if (count != 4) {
        fputs("usage: rmat SCALE EDGES NUMBER\n", stderr);
        return 1;
    }
    int scale = atoi(arguments[1]);
    uint64_t edges = strtoull(arguments[2], NULL, 10);
    if (scale < 0 || scale > MOST_SCALE) {
        fputs("a scale is 0 to 22\n", stderr);
        return 1;
    }
    struct words words;
    begin(&words, strtoull(arguments[3], NULL, 10));
    for (uint64_t edge = 0; edge < edges; edge++) {
        write_edge(&words, scale);
    }
    return fflush(stdout) == 0 ? 0 : 1;
}
