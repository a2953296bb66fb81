/* Prints a listing of a million lines over the code whose name is given: mostly words with few flips, some repeats, clearings and bad lines. */
#include <stdint.h>
#include <stdio.h>
#include <string.h>

typedef unsigned long long word;

static word state = 88172645463325252ULL;

static word next_random(void)
{
    state ^= state << 13;
    state ^= state >> 7;
    state ^= state << 17;
    return state;
}

int main(int argc, char **argv)
{
    const char *name = argc > 1 ? argv[1] : "G23";
    int n = name[1] == '2' ? 23 : name[1] == '3' ? 31 : 41;
    int k = n == 23 ? 12 : n == 31 ? 16 : 21, r = n - k, t = n == 41 ? 4 : 3;
    word generator = n == 23 ? 0xae3 : n == 31 ? 0xe309 : 0x1b4e5b;
    puts(name);
    for (int i = 0, offers = 0; i < 1000000; i++) {
        word w = next_random() % (1ULL << k) << r;
        for (word rest = w, j = n; j-- > (word)r;)
            if (rest >> j & 1) {
                rest ^= generator << (j - r);
                w ^= (generator << (j - r)) & ((1ULL << r) - 1);
            }
        for (int flips = (int)(next_random() % (word)(t + 2)); flips > 0; flips--)
            w ^= 1ULL << next_random() % (word)n;
        if (strchr(name, '+'))
            w = w << 1 | (word)(__builtin_popcountll(w) & 1);
        if (offers == 250)
            offers = 0, puts("C");
        else if (i % 97 == 0)
            printf("R %llu %llx\n", next_random() % 260, w);
        else if (i % 101 == 0)
            printf("W %llX \n", w);
        else
            offers++, printf("W %llx\n", w);
    }
    return 0;
}
