/* A plain C listing, to compare the program `listing` with: the same lines in, the same lines out. */
#include <stdio.h>
#include <string.h>

#include "port.h"

typedef unsigned long long word;

static port_code code;
static int count, is_gap[256];

static int read_digits(const char *s, int length, int most, word base, word *value)
{
    if (length < 1 || length > most)
        return 0;
    *value = 0;
    for (int i = 0; i < length; i++) {
        word digit;
        if (s[i] >= '0' && s[i] <= '9')
            digit = s[i] - '0';
        else if (base == 16 && s[i] >= 'a' && s[i] <= 'f')
            digit = s[i] - 'a' + 10;
        else
            return 0;
        *value = *value * base + digit;
    }
    return 1;
}

static void hear(word w, int place)
{
    port_correction found;
    is_gap[place] = port_correct(&code, w, &found) != 0;
    if (is_gap[place])
        printf("GAP %d\n", place);
    else
        printf("OK %d %llx %llx\n", place, (word)found.message, (word)found.pattern);
}

static void offer(word w)
{
    if (w >> (code.n + code.parity))
        puts("NO 2");
    else if (count == 256)
        puts("NO 5");
    else
        hear(w, count++);
}

static void repeat(word place, word w)
{
    if (w >> (code.n + code.parity))
        puts("NO 2");
    else if (place >= (word)count || !is_gap[place])
        puts("NO 6");
    else
        hear(w, (int)place);
}

static void answer(char *line, int length)
{
    word w, place;
    char *space;
    if (!strcmp(line, "C")) {
        count = 0;
        puts("CLEAR");
    } else if (line[0] == 'W' && line[1] == ' ' && read_digits(line + 2, length - 2, 11, 16, &w)) {
        offer(w);
    } else if (line[0] == 'R' && line[1] == ' ' && (space = strchr(line + 2, ' '))
               && read_digits(line + 2, (int)(space - line) - 2, 3, 10, &place)
               && read_digits(space + 1, length - (int)(space + 1 - line), 11, 16, &w)) {
        repeat(place, w);
    } else {
        puts("NO 13");
    }
}

static int open_listing(const char *name)
{
    static const char *const names[] = {"G23", "Q31", "Q41"};
    for (int i = 0; i < 3; i++)
        if (!strncmp(name, names[i], 3) && (!name[3] || !strcmp(name + 3, "+P"))) {
            port_make(&code, name[3] ? i + 4 : i);
            return 1;
        }
    return 0;
}

int main(void)
{
    static char line[4096];
    for (int first = 1; fgets(line, sizeof line, stdin); first = 0) {
        int length = (int)strcspn(line, "\n");
        line[length] = 0;
        if (!first)
            answer(line, length);
        else if (!open_listing(line)) {
            puts("NO 13");
            return 0;
        }
    }
    return 0;
}
