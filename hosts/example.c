/* Lowers the specification's example, the element <a /> in a module, and prints its calls, notices and records:
 *
 *     cc -Ihosts hosts/example.c crates/jsxlib/out/libjsxlib.a -o example && ./example
 */
#include <stdio.h>
#include <string.h>
#include "jsxlib.h"

static void print_line(const char *word, const uint8_t *bytes, size_t size) {
    printf("%s", word);
    for (size_t i = 0; i < size; i++) printf(" %02x", bytes[i]);
    printf("\n");
}

static int refused(uint8_t number, size_t figure) {
    printf("refused %u %zu\n", number, figure);
    return 1;
}

int main(void) {
    const uint8_t text[] = {'a'};
    const uint8_t opening[] = {0x61, 0xe1, 0x00};
    /* a list of one root, behind its length */
    const uint8_t roots[] = {20, 0, 0x01, 0, 0x02, 3, 0x10, 0, 0, 0, 0, 0, 0, 0, 0, 0x20, 0, 0, 1, 0, 0x1e, 0x1f};
    const uint8_t *root = roots + 2;
    const size_t root_size = sizeof roots - 2;
    uint8_t state[JSX_STATE_SIZE], calls[256], notices[32], records[32];
    size_t taken, figure, calls_filled, notices_filled;

    uint8_t number = jsx_open(text, sizeof text, opening, sizeof opening, state, sizeof state, notices, sizeof notices, &figure);
    if (number != 0) return refused(number, figure);
    if (jsx_call_room(root, root_size) > sizeof calls) return 1;
    number = jsx_root(text, sizeof text, state, sizeof state, root, root_size, calls, sizeof calls, notices, sizeof notices, &figure);
    if (number != 0) return refused(number, figure);
    jsx_fills(state, sizeof state, &calls_filled, &notices_filled);
    print_line("calls", calls, calls_filled);
    print_line("notices", notices, notices_filled);
    number = jsx_records(text, sizeof text, state, sizeof state, records, sizeof records, &figure);
    if (number != 0) return refused(number, figure);
    print_line("records", records, figure);

    /* what B0 01 stands for, and that nothing in the settings says otherwise */
    uint8_t source[32], settings[JSX_SETTINGS_SIZE];
    number = jsx_source(text, sizeof text, state, sizeof state, 1, source, sizeof source, &figure);
    if (number != 0) return refused(number, figure);
    if (figure != 17 || memcmp(source, "react/jsx-runtime", 17) != 0) return 1;
    number = jsx_settings(text, sizeof text, state, sizeof state, settings, sizeof settings, &figure);
    if (number != 0) return refused(number, figure);
    if (figure != JSX_SETTINGS_SIZE || settings[0] != 0xe1 || settings[27] != 0) return 1;

    /* the same root once more, from a list: its calls are the same, since its binding is there already */
    size_t before = calls_filled;
    number = jsx_roots(text, sizeof text, state, sizeof state, roots, sizeof roots, calls, sizeof calls, notices, sizeof notices, &taken, &figure);
    if (number != 0) return refused(number, figure);
    jsx_fills(state, sizeof state, &calls_filled, &notices_filled);
    for (size_t i = 0; i < before; i++) {
        if (calls[i] != calls[before + i]) return 1;
    }
    if (taken != 1 || calls_filled != 2 * before) return 1;

    /* and once more as a whole job */
    size_t stage;
    number = jsx_job(text, sizeof text, opening, sizeof opening, roots, sizeof roots, calls + before, sizeof calls - before, notices, sizeof notices, records,
                     sizeof records, &stage, &taken, &calls_filled, &notices_filled, &figure);
    if (number != 0) return refused(number, figure);
    for (size_t i = 0; i < before; i++) {
        if (calls[i] != calls[before + i]) return 1;
    }
    if (stage != 2 || taken != 1 || calls_filled != before || notices_filled != 0 || figure != 5) return 1;

    /* a mistyped pragma is told by the opening: the part behind the first dot of h..x is empty */
    const uint8_t mistyped[] = {'h', '.', '.', 'x'};
    const uint8_t classic[] = {0x61, 0x08, 0x00, 0x62, 0, 0, 4, 0};
    const uint8_t told[] = {0xc2, 2, 0, 0, 0};
    number = jsx_open(mistyped, sizeof mistyped, classic, sizeof classic, state, sizeof state, notices, JSX_OPENING_NOTICES, &figure);
    if (number != 0) return refused(number, figure);
    jsx_fills(state, sizeof state, &calls_filled, &notices_filled);
    return calls_filled == 0 && notices_filled == sizeof told && memcmp(notices, told, sizeof told) == 0 ? 0 : 1;
}
