/* A plain C program with the output of `settle`, to measure it by: octets for the views, a running number for each view, the numbers
   adjusted by view. The rules are paper 01's, section "settle". */
#include <stdio.h>

enum { PLACES = 256, LARGEST = 254, INPUT = 4096 };

static unsigned char input[INPUT];
static unsigned char station[LARGEST], view[LARGEST], next_of[PLACES], listed[PLACES];
static unsigned number_of[PLACES];
static unsigned stations, total, passes, silences;

/* A number of 1 to 254 in front of the mark, or 0; `at` goes behind the mark. */
static unsigned read_number(size_t *at, size_t end, unsigned char mark)
{
    unsigned number = 0;
    size_t here = *at;

    if (here < end && input[here] == '0')
        return 0;
    for (; here < end && '0' <= input[here] && input[here] <= '9'; here++) {
        number = 10 * number + (input[here] - '0');
        if (number > LARGEST)
            return 0;
    }
    if (here == end || input[here] != mark)
        return 0;
    *at = here + 1;
    return number;
}

/* The ring, or the number of the first bad line plus 1. */
static unsigned read_ring(size_t length)
{
    unsigned line = 0, last = 0;

    if (length == 0)
        return 1;
    for (size_t at = 0; at < length;) {
        unsigned number = read_number(&at, length, ',');
        unsigned seen = number ? read_number(&at, length, '\n') : 0;
        line++;
        if (number <= last || seen == 0)
            return line + 1;
        station[stations] = (unsigned char)number;
        view[stations++] = (unsigned char)seen;
        listed[number] = 1;
        last = number;
    }
    for (unsigned i = 0; i < stations; i++)
        if (!listed[view[i]])
            return i + 2;
    return 0;
}

static void count(void)
{
    for (unsigned i = 0; i < stations; i++) {
        next_of[station[i]] = station[i + 1 < stations ? i + 1 : 0];
        total += number_of[view[i]]++ == 0;
    }
}

static unsigned smallest_holder(void)
{
    for (unsigned i = 0; i < stations; i++)
        if (view[i] == station[i])
            return station[i];
    return 0;
}

/* The numbers of the source and of all views above the destination go to the destination. */
static void pass(unsigned char from, unsigned char to)
{
    unsigned moved = number_of[from];

    total -= 1 + (from != to && number_of[to] != 0);
    number_of[from] = 0;
    for (unsigned v = to + 1u; v < PLACES; v++) {
        total -= number_of[v] != 0;
        moved += number_of[v];
        number_of[v] = 0;
    }
    number_of[to] += moved;
    total++;
    for (unsigned i = 0; i < stations; i++) {
        unsigned char smaller = view[i] < to ? view[i] : to;
        view[i] = view[i] == from ? to : smaller;
    }
    passes++;
}

/* Every view, and its number with it, goes to the next station. */
static void silence(void)
{
    unsigned last = number_of[station[stations - 1]];

    for (unsigned i = stations - 1; i > 0; i--)
        number_of[station[i]] = number_of[station[i - 1]];
    number_of[station[0]] = last;
    for (unsigned i = 0; i < stations; i++)
        view[i] = next_of[view[i]];
    silences++;
}

int main(void)
{
    unsigned bad = read_ring(fread(input, 1, sizeof input, stdin));

    if (bad) {
        printf("bad,%u\n", bad - 1);
        return 0;
    }
    count();
    puts("what,from,to,views");
    while (total > 1) {
        unsigned char holder = (unsigned char)smallest_holder();
        if (holder) {
            pass(holder, next_of[holder]);
            printf("P,%d,%d,%u\n", holder, next_of[holder], total);
        } else {
            silence();
            printf("S,0,0,%u\n", total);
        }
    }
    printf("E,%u,%u,%u\n", passes, silences, total);
    return 0;
}
