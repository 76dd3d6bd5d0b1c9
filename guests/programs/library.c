/* picolibc: text, memory, sorting, and numbers with a point. */
#include <stdint.h>
#include <stdio.h>
#include <stdlib.h>
#include <string.h>
#include <errno.h>

enum { COUNT = 200 };

static int by_value(const void *a, const void *b)
{
    int one = *(const int *)a, other = *(const int *)b;
    return (one > other) - (one < other);
}

static void sort_numbers(void)
{
    int *numbers = malloc(COUNT * sizeof *numbers);
    uint32_t seed = 12345;
    for (int place = 0; place < COUNT; place++) {
        seed = seed * 1664525u + 1013904223u;
        numbers[place] = (int)(seed >> 8) % 1000;
    }
    qsort(numbers, COUNT, sizeof *numbers, by_value);
    int in_order = 1;
    for (int place = 1; place < COUNT; place++)
        in_order &= numbers[place - 1] <= numbers[place];
    printf("sorted: %s, from %d to %d\n", in_order ? "yes" : "no", numbers[0], numbers[COUNT - 1]);
    free(numbers);
}

int main(void)
{
    printf("%s, %d %u %x %08lx %lld\n", "hello", -42, 42u, 0xbeef, 0x1234abcdul, -1234567890123ll);
    sort_numbers();
    char *rest;
    long number = strtol("-0x7fz", &rest, 0);
    printf("%ld, then %s; %s\n", number, rest, strstr("needle in haystack", "in"));
    printf("%.6f %.3e %g\n", 3.14159265, 1e-10, 0.5 + 0.25);
    errno = 0;
    printf("a megabyte: %s\n", malloc(1000000) ? "had" : "refused");
    printf("errno is that of no memory: %s\n", errno == ENOMEM ? "yes" : "no");
    return 0;
}
