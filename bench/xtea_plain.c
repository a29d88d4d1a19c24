/* XTEA with 32 cycles as it was published, in plain C: the program that bench/xtea compares with
 * crates/cipher_speed. It enciphers a block over and over, each time what came out before, and
 * prints the last block in hexadecimal. Standard input has the key (16 bytes), the first block
 * (8 bytes), and how many times (4 bytes, high byte first). */
#include <stdint.h>
#include <stdio.h>

static uint32_t get(const uint8_t *bytes)
{
    return (uint32_t)bytes[0] << 24 | (uint32_t)bytes[1] << 16 | (uint32_t)bytes[2] << 8 | bytes[3];
}

static void put(uint32_t word, uint8_t *bytes)
{
    bytes[0] = (uint8_t)(word >> 24);
    bytes[1] = (uint8_t)(word >> 16);
    bytes[2] = (uint8_t)(word >> 8);
    bytes[3] = (uint8_t)word;
}

static void encipher(const uint8_t key_bytes[16], uint8_t block[8])
{
    uint32_t key[4], v0 = get(block), v1 = get(block + 4), sum = 0;

    for (unsigned i = 0; i < 4; i++)
        key[i] = get(key_bytes + 4 * i);
    for (unsigned i = 0; i < 32; i++) {
        v0 += (((v1 << 4) ^ (v1 >> 5)) + v1) ^ (sum + key[sum & 3]);
        sum += 0x9E3779B9;
        v1 += (((v0 << 4) ^ (v0 >> 5)) + v0) ^ (sum + key[(sum >> 11) & 3]);
    }
    put(v0, block);
    put(v1, block + 4);
}

int main(void)
{
    uint8_t in[28], *block = in + 16;
    uint32_t times;

    if (fread(in, 1, sizeof in, stdin) != sizeof in) {
        fprintf(stderr, "xtea_plain: the input is cut\n");
        return 1;
    }
    times = get(in + 24);
    for (uint32_t i = 0; i < times; i++)
        encipher(in, block);
    for (unsigned i = 0; i < 8; i++)
        printf("%02x", block[i]);
    printf("\n");
    return 0;
}
