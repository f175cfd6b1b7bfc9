/* Free numbering by hand, to compare with: every mark of three fields of N numbers, a line each. */
#include <stdio.h>
#include <stdlib.h>

static char *put(char *at, unsigned n) {
    char digits[10];
    int have = 0;
    do {
        digits[have++] = (char)('0' + n % 10);
        n /= 10;
    } while (n);
    while (have)
        *at++ = digits[--have];
    return at;
}

int main(int argc, char **argv) {
    unsigned n = argc > 1 ? (unsigned)atoi(argv[1]) : 74;
    char line[32];
    for (unsigned a = 0; a < n; a++)
        for (unsigned b = 0; b < n; b++)
            for (unsigned c = 0; c < n; c++) {
                char *at = put(line, a);
                *at++ = '/';
                at = put(at, b);
                *at++ = '/';
                at = put(at, c);
                *at++ = '\n';
                fwrite(line, 1, (size_t)(at - line), stdout);
            }
    printf("issued %u dead 0 spent 0\n", n * n * n);
    return 0;
}
