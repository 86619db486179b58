// driver CALLS <FILE: judges what it reads so many times, and prints the answer. Without headers, so that any C compiler for x86-64 will do.
typedef unsigned long size_t;
long read(int, void *, size_t);
int printf(const char *, ...);
long atol(const char *);
#ifndef JUDGE
#define JUDGE vaib_judge
#endif
unsigned long JUDGE(const unsigned char *bytes, size_t length);
static unsigned char bytes[1 << 20];
int main(int argc, char **argv) {
    if (argc != 2) return 2;
    size_t length = 0;
    for (long n; length < sizeof bytes && (n = read(0, bytes + length, sizeof bytes - length)) > 0;) length += n;
    unsigned long answer = 99;
    for (long calls = atol(argv[1]); calls > 0; calls--) answer = JUDGE(bytes, length);
    printf("%lu\n", answer);
    return 0;
}
