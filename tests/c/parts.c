// The header's small functions, on numbers from standard input: on each line a word that says what the numbers are, and up to six in hex.
// What they give is written in hex, a line each.
#include <inttypes.h>
#include <stdio.h>
#include <stdlib.h>
#include <string.h>

#include "side_board_loader.h"

static void put_bytes(const uint8_t *bytes, int count) {
    for (int i = 0; i < count; i++) printf("%x%c", bytes[i], i + 1 < count ? ' ' : '\n');
}

static void answer(const char *word, const uint64_t *n) {
    if (!strcmp(word, "session")) {
        printf("%x %x %x ", loader_state(n[0]), loader_status(n[0]), loader_pending(n[0]));
        printf("%x %x\n", loader_pending_first(n[0]), loader_pending_last(n[0]));
    } else if (!strcmp(word, "outcome")) {
        printf("%x %x\n", loader_outcome_kind(n[0]), loader_outcome_value(n[0]));
    } else if (!strcmp(word, "taken")) {
        printf("%x\n", loader_taken(n[0], &n[1]));
    } else if (!strcmp(word, "config")) {
        uint8_t bytes[8];
        for (unsigned place = 0; place < 8; place++) bytes[place] = loader_config_byte(n[0], place);
        put_bytes(bytes, 8);
    } else if (!strcmp(word, "command")) {
        printf("%" PRIx64 "\n", loader_command((uint16_t)n[0], (uint16_t)n[1], (uint16_t)n[2]));
    } else if (!strcmp(word, "setup")) {
        uint8_t setup[LOADER_SETUP_SIZE];
        memset(setup, 0x55, sizeof setup);
        loader_setup(setup, (uint16_t)n[0], (uint16_t)n[1]);
        put_bytes(setup, LOADER_SETUP_SIZE);
    } else if (!strcmp(word, "wait")) {
        uint8_t reply[LOADER_GETSTATUS_SIZE];
        for (int i = 0; i < LOADER_GETSTATUS_SIZE; i++) reply[i] = (uint8_t)n[i];
        printf("%" PRIx32 "\n", loader_wait(reply));
    }
}

int main(void) {
    char line[200];
    while (fgets(line, sizeof line, stdin)) {
        uint64_t numbers[6] = {0};
        const char *word = strtok(line, " \n"), *next;
        for (int i = 0; i < 6 && (next = strtok(NULL, " \n")); i++) numbers[i] = strtoull(next, NULL, 16);
        answer(word, numbers);
    }
    return 0;
}
