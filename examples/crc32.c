/* CRC-32 (ISO 3309, reflected polynomial EDB88320) by a table of 256 words; over "123456789" it is CBF43926. */
void putchar(int c);

static unsigned table[256];

static void make_table(void)
{
    for (unsigned n = 0; n < 256; n++) {
        unsigned c = n;
        for (int bit = 0; bit < 8; bit++)
            c = c & 1 ? c >> 1 ^ 0xEDB88320u : c >> 1;
        table[n] = c;
    }
}

static unsigned crc32(const char *text)
{
    unsigned crc = ~0u;
    while (*text)
        crc = crc >> 8 ^ table[(crc ^ (unsigned char)*text++) & 0xFF];
    return ~crc;
}

static void print_hex(unsigned n)
{
    for (int shift = 28; shift >= 0; shift -= 4)
        putchar("0123456789ABCDEF"[n >> shift & 0xF]);
    putchar('\n');
}

int main(void)
{
    make_table();
    print_hex(crc32("123456789"));
    return 0;
}
