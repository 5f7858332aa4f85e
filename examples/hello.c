/* The shortest C program with output. */
void putchar(int c);

int main(void)
{
    const char *text = "hello, world\n";
    while (*text)
        putchar(*text++);
    return 0;
}
