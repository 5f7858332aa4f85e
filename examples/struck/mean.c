/* The mean of three samples, 21. They share a word of memory with a flag that says that they were used: the loads
   of the samples read that word, and the store of the flag, one byte, reads and writes it. */
void putchar(int c);

static volatile struct {
    unsigned char samples[3];
    unsigned char used;
} record = {{20, 22, 21}, 0};

int main(void)
{
    int sum = 0;
    for (int i = 0; i < 3; i++)
        sum += record.samples[i];
    int mean = sum / 3;
    record.used = 1;
    putchar('0' + mean / 10);
    putchar('0' + mean % 10);
    putchar('\n');
    return 0;
}
