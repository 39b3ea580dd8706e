/* The survey of a ticket on standard input: how C calls the library.
 *
 *     cc bindings/c/survey.c target/staticlib/libpozqaben.a -o survey && ./survey < examples/box-4x1.ticket
 */
#include <stdio.h>

#include "pozqaben.h"

/* The entries of the answer, in order. */
enum { KIND = 2, LENGTH, WIDTH, NETS, PINS, ACROSS, UP, LAYERS, FLOOR };

static void print_counts(const uint64_t *a) {
    printf(" nets %d pins %d across %d", (int)a[NETS], (int)a[PINS], (int)a[ACROSS]);
}

static void print_box(const uint64_t *a) {
    printf("box length %d width %d", (int)a[LENGTH], (int)a[WIDTH]);
    print_counts(a);
    printf(" up %d layers %d floor %d\n", (int)a[UP], (int)a[LAYERS], (int)a[FLOOR]);
}

static void print_trunks(const char *name, const uint64_t *a) {
    printf("%s length %d", name, (int)a[LENGTH]);
    print_counts(a);
    printf(" tracks %d layers %d\n", (int)a[WIDTH], (int)a[LAYERS]);
}

static void print_two_layer(const uint64_t *a) {
    printf("two-layer length %d", (int)a[LENGTH]);
    print_counts(a);
    printf(" layers %d\n", (int)a[LAYERS]);
}

int main(void) {
    uint8_t ticket[POZQABEN_LONGEST_TICKET + 1];
    size_t length = fread(ticket, 1, sizeof ticket, stdin);
    uint64_t answer[POZQABEN_SURVEY_ENTRIES];
    if (!pozqaben_survey(ticket, length, answer, POZQABEN_SURVEY_ENTRIES))
        return 1;
    if (answer[0] != 0) {
        printf("refused %d at %d\n", (int)answer[0], (int)answer[1]);
        return 0;
    }
    switch (answer[KIND]) {
    case POZQABEN_ROW:
        print_trunks("row", answer);
        return 0;
    case POZQABEN_CHANNEL:
        print_trunks("channel", answer);
        return 0;
    case POZQABEN_BOX:
        print_box(answer);
        return 0;
    case POZQABEN_TWO_LAYER:
        print_two_layer(answer);
        return 0;
    }
    return 1;
}
