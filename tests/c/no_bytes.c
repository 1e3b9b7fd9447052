// What the header says of NULL with size 0: each call below lends it, and its answer was worked out from 01 and P2. A line is written for
// each that is not so.
#include <stdio.h>
#include <string.h>

#include "side_board_loader.h"

static uint8_t flash[LOADER_FLASH_SIZE], eeprom[LOADER_EEPROM_SIZE], reply[LOADER_REPLY_SIZE], plug[LOADER_SERIAL_FLASH_SIZE], room[16];
static uint8_t setup[LOADER_SETUP_SIZE];
static uint64_t session, config;
static uint16_t busy;
static size_t count, pages;
static int tried, wrong;

static void is(const char *what, uint64_t found, uint64_t right) {
    tried++;
    if (found == right) return;
    wrong++;
    printf("%s: %llx, and has to be %llx\n", what, (unsigned long long)found, (unsigned long long)right);
}

// GETSTATUS with sizes of 0 for those that are NULL.
static uint64_t step(uint8_t *s, uint8_t *f, uint8_t *e, uint8_t *r) {
    return loader_step(&session, &busy, &config, s, s ? sizeof setup : 0, NULL, 0, f, f ? sizeof flash : 0, e, e ? sizeof eeprom : 0, r,
                       r ? sizeof reply : 0, &count, &pages);
}

static uint64_t refused(uint64_t number) { return LOADER_OUTCOME_REFUSED | number << 16; }

static void steps(void) {
    session = loader_power_up(&busy), config = loader_delivered();
    loader_setup(setup, LOADER_REQUEST_GETSTATUS, LOADER_GETSTATUS_SIZE);
    is("GETSTATUS without data", step(setup, flash, eeprom, reply), LOADER_OUTCOME_DONE);
    is("its bytes", count, LOADER_GETSTATUS_SIZE);
    is("no setup", step(NULL, flash, eeprom, reply), refused(LOADER_REFUSED_SETUP_SIZE));
    is("no flash", step(setup, NULL, eeprom, reply), refused(LOADER_REFUSED_FLASH_SIZE));
    is("no EEPROM", step(setup, flash, NULL, reply), refused(LOADER_REFUSED_EEPROM_SIZE));
    is("no reply", step(setup, flash, eeprom, NULL), refused(LOADER_REFUSED_REPLY_SIZE));
    is("nothing at all", step(NULL, NULL, NULL, NULL), refused(LOADER_REFUSED_SETUP_SIZE));
    is("the session then", session, LOADER_STATE_IDLE);
}

static void commands(void) {
    uint64_t command = 0;
    size_t body = 0, suffix = 0, at = 1;
    uint64_t version = loader_command(LOADER_COMMAND_READ_VERSION, 0, 0), program = loader_command(LOADER_COMMAND_PROGRAM_FLASH, 0, 0);
    is("read no data", loader_read_command(NULL, 0, &command, &body, &suffix), LOADER_STATUS_ERR_STALLEDPK);
    is("write without body and suffix", loader_write_command(version, NULL, 0, NULL, 0, room, sizeof room, &count), 0);
    is("its bytes", count, 3);
    is("write into no room", loader_write_command(version, NULL, 0, NULL, 0, NULL, 0, &count), LOADER_REFUSED_ROOM);
    is("program no bytes", loader_write_command(program, NULL, 0, NULL, 0, NULL, 0, &count), LOADER_REFUSED_COMMAND);
    is("an empty job", loader_check_job(NULL, 0, &at), 0);
    is("its place", at, 0);
    is("its requests", loader_count_requests(NULL, 0), 0);
}

static uint64_t record(const char *text, uint8_t *f, uint8_t *r) {
    uint32_t delivered = serial_delivered();
    const uint8_t *characters = (const uint8_t *)text;
    return serial_step(&delivered, characters, text ? strlen(text) : 0, f, f ? sizeof plug : 0, r, r ? sizeof room : 0, &count, &pages);
}

static void records(void) {
    uint16_t offset = 1;
    uint8_t kind = 0;
    const uint8_t end[] = ":00000001FF";
    is("no record", record(NULL, plug, room), refused(LOADER_REFUSED_RECORD));
    is("no flash of the plug", record(NULL, NULL, NULL), refused(LOADER_REFUSED_FLASH_SIZE));
    is("an answer into no room", record(":020000050000F9", plug, NULL), refused(LOADER_REFUSED_ROOM));
    is("a start, which has no answer", record(":020000030300F8", plug, NULL), LOADER_SERIAL_OUTCOME_START_RESET);
    is("read no record", serial_read_record(NULL, 0, NULL, 0, &offset, &kind, &count), LOADER_REFUSED_RECORD);
    is("read one without data", serial_read_record(end, sizeof end - 1, NULL, 0, &offset, &kind, &count), 0);
    is("its type", kind, 1);
    is("write one without data", serial_write_record(0, 1, NULL, 0, room, sizeof room, &count), 0);
    is("its characters", (uint64_t)memcmp(room, end, sizeof end - 1), 0);
    is("write into no room", serial_write_record(0, 1, NULL, 0, NULL, 0, &count), LOADER_REFUSED_ROOM);
}

int main(void) {
    steps();
    commands();
    records();
    printf("%d answers with no bytes lent, %d wrong\n", tried, wrong);
    return wrong != 0;
}
