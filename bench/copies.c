/* Loaded before the C library: counts the copies and fills of more than 64 bytes that a program asks it for, and their bytes, and
   writes both to standard error when the program ends. It stands alone: of the C library it calls write, and nothing that copies. */

typedef unsigned long size_t;
long write(int, const void *, size_t);

static size_t calls, bytes;

static void count(size_t n)
{
    if (n > 64) {
        calls++;
        bytes += n;
    }
}

static void forward(unsigned char *to, const unsigned char *from, size_t n)
{
    __asm__ volatile("rep movsb" : "+D"(to), "+S"(from), "+c"(n) : : "memory");
}

void *memcpy(void *to, const void *from, size_t n)
{
    count(n);
    forward(to, from, n);
    return to;
}

void *memmove(void *to, const void *from, size_t n)
{
    const unsigned char *end = (const unsigned char *)from + n;
    unsigned char *to_end = (unsigned char *)to + n;
    count(n);
    if ((size_t)to - (size_t)from >= n)
        forward(to, from, n);
    else
        while (n--)
            *(volatile unsigned char *)--to_end = *--end;
    return to;
}

void *memset(void *to, int byte, size_t n)
{
    void *at = to;
    count(n);
    __asm__ volatile("rep stosb" : "+D"(at), "+c"(n) : "a"(byte) : "memory");
    return to;
}

static char *put(char *at, size_t n)
{
    if (n >= 10)
        at = put(at, n / 10);
    *at = (char)('0' + n % 10);
    return at + 1;
}

__attribute__((destructor)) static void tell(void)
{
    char line[64];
    char *at = put(line, calls);
    *at++ = ' ';
    at = put(at, bytes);
    *at++ = '\n';
    write(2, line, (size_t)(at - line));
}
