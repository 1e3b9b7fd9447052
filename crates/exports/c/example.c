/* A host and its board in one program: it programs a byte, waits, reads it back, and is told that a second one is refused. */
#include <stdio.h>
#include <string.h>

#include "side_board_loader.h"

static uint64_t session, config;
static uint16_t busy;
static uint8_t flash[LOADER_FLASH_SIZE], eeprom[LOADER_EEPROM_SIZE], reply[LOADER_REPLY_SIZE];

/* Sends a request, with data or without, and gives its outcome. */
static uint64_t ask(uint16_t request, const uint8_t *data, uint16_t length) {
    uint8_t setup[LOADER_SETUP_SIZE];
    size_t count, pages;
    loader_setup(setup, request, length);
    return loader_step(&session, &busy, &config, setup, sizeof setup, data, data ? length : 0, flash, sizeof flash, eeprom, sizeof eeprom,
                       reply, sizeof reply, &count, &pages);
}

/* Sends a command and waits until it is done. Gives whether it was: taken, by the status because done is not success, and in state 5. */
static int command(uint64_t number, const uint8_t *body, size_t size) {
    static const uint8_t suffix[LOADER_SUFFIX_SIZE] = {0};
    uint8_t data[LOADER_MOST_DATA];
    size_t length;
    if (loader_write_command(number, body, size, suffix, size ? sizeof suffix : 0, data, sizeof data, &length)) return 0;
    int taken = loader_taken(ask(LOADER_REQUEST_DNLOAD, data, (uint16_t)length), &session);
    ask(LOADER_REQUEST_GETSTATUS, NULL, LOADER_GETSTATUS_SIZE);
    if (loader_state(session) == LOADER_STATE_DNBUSY) {
        printf("waiting %u ms\n", (unsigned)loader_wait(reply)); /* for a real board: sleep that long */
        ask(LOADER_REQUEST_GETSTATUS, NULL, LOADER_GETSTATUS_SIZE);
    }
    return taken && loader_state(session) == LOADER_STATE_DNLOAD_IDLE;
}

static void program(uint16_t address, uint8_t value) {
    int stored = command(loader_command(LOADER_COMMAND_PROGRAM_FLASH, address, address), &value, 1);
    const char *why = loader_status(session) == LOADER_STATUS_ERR_WRITE ? ": the security level refuses it" : "";
    printf("%02X to %04Xh: state %u, status %02X, ", value, address, loader_state(session), loader_status(session));
    printf("%s%s\n", stored ? "stored" : "NOT stored", why);
}

static void read_back(uint16_t address) {
    if (!command(loader_command(LOADER_COMMAND_READ_FLASH, address, address), NULL, 0)) return;
    if (ask(LOADER_REQUEST_UPLOAD, NULL, 1) == LOADER_OUTCOME_DONE) printf("%04Xh holds %02X\n", address, reply[0]);
}

int main(void) {
    session = loader_power_up(&busy), config = loader_delivered();
    memset(flash, 0xFF, sizeof flash), memset(eeprom, 0xFF, sizeof eeprom);
    program(0x2A35, 0x5A);
    read_back(0x2A35);
    command(loader_command(LOADER_COMMAND_WRITE_CONFIGURATION_BYTE, LOADER_INDEX_SSB, LOADER_SSB_LEVEL_1), NULL, 0);
    program(0x2A35, 0x5B);
    ask(LOADER_REQUEST_CLRSTATUS, NULL, 0); /* clears the status and stores nothing */
    read_back(0x2A35);
    return 0;
}
