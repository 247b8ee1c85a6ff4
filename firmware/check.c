/*
 * Checks a script as a camera's firmware does before it stores it.
 *
 *   check            tries good and bad scripts and random bytes, and says what it found
 *   check -          prints the check's answer for the script on standard input
 */
#include <stdbool.h>
#include <stdio.h>
#include <stdlib.h>
#include <string.h>

#include "fennec.h"

/* The longest script that is read; a longer one is refused. */
enum { SOURCE_LIMIT = 16384 };

struct verdict {
    unsigned number;
    unsigned place;
};

static struct verdict check(const void *source, size_t length)
{
    uint32_t answer = fennec_check(source, length);
    struct verdict verdict = { answer / 65536, answer % 65536 };
    return verdict;
}

struct sample {
    const char *source;
    struct verdict expected;
};

static const struct sample SAMPLES[] = {
    { "int main(){return 1;}", { 0, 0 } },
    { "extern int zone(int i);int main(){return zone(3);}", { 0, 0 } },
    { "", { 9, 0 } },
    { "int main(){ ", { 9, 12 } },
    { "int main(){@}", { 4, 11 } },
    { "int main(){/*", { 5, 11 } },
    { "int main(){char c='ab';}", { 6, 18 } },
    { "int main(){return 2147483648;}", { 7, 18 } },
    { "int main(){return 1 2;}", { 9, 20 } },
    { "extern int x();int main(){}", { 11, 11 } },
    { "int main(){int i=1;int i=2;}", { 12, 23 } },
    { "int main(){x=1;}", { 13, 11 } },
    { "int main(){main();}", { 14, 11 } },
    { "int main(){return 1+true;}", { 15, 19 } },
    { "int main(){break;}", { 16, 11 } },
};

static bool samples_pass(void)
{
    bool pass = true;
    for (size_t i = 0; i < sizeof SAMPLES / sizeof SAMPLES[0]; i++) {
        const struct sample *sample = &SAMPLES[i];
        struct verdict got = check(sample->source, strlen(sample->source));
        if (got.number != sample->expected.number || got.place != sample->expected.place) {
            printf("%s: %u at %u, not %u at %u\n", sample->source, got.number, got.place,
                   sample->expected.number, sample->expected.place);
            pass = false;
        }
    }
    return pass;
}

/* The limits of length: a script of blanks around a main, and one byte more. */
static bool lengths_pass(void)
{
    static uint8_t source[SOURCE_LIMIT + 1];
    static const char script[] = "int main(){}";
    memset(source, ' ', sizeof source);
    memcpy(source, script, sizeof script - 1);
    struct verdict longest = check(source, SOURCE_LIMIT);
    struct verdict longer = check(source, SOURCE_LIMIT + 1);
    struct verdict nothing = check(NULL, 0);
    if (longest.number != 0 || longer.number != 1 || longer.place != 0 || nothing.number != 9) {
        printf("lengths: %u, %u, %u\n", longest.number, longer.number, nothing.number);
        return false;
    }
    return true;
}

/* Random bytes in a block of exactly their size, so that the sanitizers see any byte too many. Each is refused, and within
 * the source. */
static bool noise_passes(unsigned count)
{
    uint32_t state = 1;
    for (unsigned i = 0; i < count; i++) {
        size_t length = i % 300;
        uint8_t *source = malloc(length ? length : 1);
        if (!source)
            return false;
        for (size_t k = 0; k < length; k++) {
            state = state * 1664525u + 1013904223u;
            source[k] = i % 2 ? (uint8_t)(state >> 24) : (uint8_t)(32 + (state >> 24) % 95);
        }
        struct verdict got = check(source, length);
        free(source);
        if (got.number == 0 || got.number > 17 || got.place > length) {
            printf("noise %u: %u at %u\n", i, got.number, got.place);
            return false;
        }
    }
    return true;
}

static int check_input(void)
{
    static uint8_t source[SOURCE_LIMIT + 1];
    size_t length = fread(source, 1, sizeof source, stdin);
    printf("%u\n", (unsigned)fennec_check(source, length));
    return 0;
}

int main(int argc, char **argv)
{
    if (argc == 2 && strcmp(argv[1], "-") == 0)
        return check_input();
    bool pass = samples_pass();
    pass = lengths_pass() && pass;
    pass = noise_passes(2000) && pass;
    puts(pass ? "the check answers as it should" : "the check answers wrongly");
    return pass ? 0 : 1;
}
