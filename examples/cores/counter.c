/* Two cores add to one counter, three times each: to `locked` under a lock that LDSTUB takes, and to `bare` without.
   Each core tells then, as digits, what it reads of both. */
void putchar(int c);

static volatile unsigned char lock;
static volatile int locked, bare;

static void take(void)
{
    unsigned int held;
    do
        __asm__ volatile("ldstub [%1], %0" : "=&r"(held) : "r"(&lock) : "memory");
    while (held);
}

static void release(void)
{
    __asm__ volatile("stbar" : : : "memory");
    lock = 0;
}

int main(int core)
{
    for (int i = 0; i < 3; i++) {
        take();
        locked = locked + 1;
        release();
        bare = bare + 1;
    }
    take();
    putchar('A' + core);
    putchar('0' + locked);
    putchar('0' + bare);
    putchar('\n');
    release();
    return 0;
}
