/* A kernel of mixed C: a sort, a CRC-32, a product of matrices by shifts and adds, copies of strings, and a recursion that
   stays within the eight register windows. It repeats them, and puts out eight digits that depend on all of them. */
void putchar(int c);

enum { NUMBERS = 64, SIZE = 8, TEXT = 96, ROUNDS = 60 };

static unsigned numbers[NUMBERS], table[256];
static unsigned left[SIZE][SIZE], right[SIZE][SIZE], product[SIZE][SIZE];
static char text[TEXT], copy[TEXT];

static unsigned next(unsigned n)
{
    n ^= n << 13;
    n ^= n >> 17;
    return n ^ n << 5;
}

static void make_table(void)
{
    for (unsigned n = 0; n < 256; n++) {
        unsigned c = n;
        for (int bit = 0; bit < 8; bit++)
            c = c & 1 ? c >> 1 ^ 0xEDB88320u : c >> 1;
        table[n] = c;
    }
}

__attribute__((noinline)) static void sort(void)
{
    for (int i = 1; i < NUMBERS; i++) {
        unsigned n = numbers[i];
        int at = i;
        for (; at > 0 && numbers[at - 1] > n; at--)
            numbers[at] = numbers[at - 1];
        numbers[at] = n;
    }
}

__attribute__((noinline)) static unsigned crc32(const char *from, unsigned crc)
{
    while (*from)
        crc = crc >> 8 ^ table[(crc ^ (unsigned char)*from++) & 0xFF];
    return crc;
}

__attribute__((noinline)) static unsigned times(unsigned a, unsigned b)
{
    unsigned sum = 0;
    for (; b; b >>= 1, a <<= 1)
        if (b & 1)
            sum += a;
    return sum;
}

__attribute__((noinline)) static void multiply(void)
{
    for (int i = 0; i < SIZE; i++)
        for (int j = 0; j < SIZE; j++) {
            unsigned sum = 0;
            for (int k = 0; k < SIZE; k++)
                sum += times(left[i][k], right[k][j]);
            product[i][j] = sum;
        }
}

__attribute__((noinline)) static void copy_text(char *to, const char *from)
{
    while ((*to++ = *from++))
        ;
}

__attribute__((noinline)) static unsigned paths(unsigned depth, unsigned seed)
{
    return depth == 0 ? seed & 7 : paths(depth - 1, seed >> 1) + paths(depth - 1, seed ^ depth);
}

static unsigned fill(unsigned seed)
{
    for (int i = 0; i < NUMBERS; i++)
        numbers[i] = seed = next(seed);
    for (int i = 0; i < SIZE; i++)
        for (int j = 0; j < SIZE; j++) {
            left[i][j] = seed = next(seed);
            right[i][j] = (seed >> 8) & 0xFF;
        }
    for (int i = 0; i < TEXT - 1; i++)
        text[i] = 'a' + (numbers[i % NUMBERS] & 15);
    return seed;
}

int main(void)
{
    unsigned seed = 1, sum = ~0u;
    make_table();
    for (int round = 0; round < ROUNDS; round++) {
        seed = fill(seed);
        sort();
        multiply();
        copy_text(copy, text);
        sum = crc32(copy, sum) ^ numbers[round % NUMBERS] ^ product[round % SIZE][3];
        sum += paths(4, seed);
    }
    for (int shift = 28; shift >= 0; shift -= 4)
        putchar("0123456789ABCDEF"[sum >> shift & 0xF]);
    putchar('\n');
    return 0;
}
