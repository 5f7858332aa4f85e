/* A recursion that is deeper than the eight register windows, so that windows are spilled and filled many times. */
void putchar(int c);

__attribute__((noinline)) static unsigned fibonacci(unsigned n)
{
    return n < 2 ? n : fibonacci(n - 1) + fibonacci(n - 2);
}

static void print(unsigned n)
{
    char digits[10];
    int count = 0;
    do
        digits[count++] = '0' + n % 10;
    while (n /= 10);
    while (count)
        putchar(digits[--count]);
    putchar('\n');
}

int main(void)
{
    print(fibonacci(14));
    return 0;
}
