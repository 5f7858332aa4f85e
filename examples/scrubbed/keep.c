/* Keeps a word that it never reads, and counts in another line, so that turns of the bus go by. */
volatile unsigned int kept[8] __attribute__((aligned(32))) = {0x600DF00D};
static volatile unsigned int count[8] __attribute__((aligned(32)));

int main(void)
{
    __asm__ volatile("" : : "r"(kept)); /* the linker keeps what is named */
    for (int i = 0; i < 40; i++)
        count[0] = i;
    return 0;
}
