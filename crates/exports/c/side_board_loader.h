/* The side board's loader, for a program in C: the functions of the static library that `rt lib` writes in crates/exports. example.c is a
 * program that calls it; README.md has the lines that build it.
 *
 * Each function answers for every input; its promise stands in crates/exports/src. It relies on this alone: a pointer before a
 * size leads to that many bytes, each other pointer to one number, and nothing that is changed overlaps anything else.
 *
 * A pointer before a size of 0 is not followed and may be NULL: NULL and 0 is no bytes, as of the data of a request without any, or of
 * body and suffix of a command that has none. For setup, flash, EEPROM and reply it is a wrong size, refused with 1, 2, 3 or 5, and for a
 * room into which something is to be written it is too short, refused with 9. No other pointer may be NULL.
 *
 * Calls share nothing. The library has no memory of its own that changes, so there is nothing to start and nothing to end; all that a
 * call reads and changes is lent to it. Calls may run at the same time where none changes what another is lent.
 *
 * Session, configuration, command and outcome are numbers of 64 bits. Those of the serial plug stand last. After the tables come names
 * for the numbers, then the functions, then small ones for the parts of a number.
 *
 * Session: state, status, and what is pending, by its kind.
 *
 *   bits 0-7     state
 *   bits 8-15    status
 *   bits 16-31   kind
 *
 *   kind  what is pending        bits 32-47  bits 48-63
 *   0     nothing                -           -
 *   1     a read of flash        start       end
 *   2     a read of EEPROM       start       end
 *   3     a blank report         address     -
 *   4     one byte               value       -
 *   5     a start by reset       address     -
 *   6     a start at an address  address     -
 *
 * The session has one part more, the busy page count: for how many pages a host still has to wait. The 64 bits have no room left for
 * it, so it is a number of its own, of 16 bits, that is lent and changed beside the session. All 16 bits count, none is cut off, and
 * a count above 256 is refused with 6.
 *
 * Configuration: eight bytes.
 *
 *   bits 0-7     BSB
 *   bits 8-15    SBV
 *   bits 16-23   P1_CF
 *   bits 24-31   P3_CF
 *   bits 32-39   P4_CF
 *   bits 40-47   SSB
 *   bits 48-55   EB
 *   bits 56-63   HSB
 *
 * Command: the kind is bits 0-15.
 *
 *   kind  command                   bits 16-31  bits 32-47
 *   0     program flash             start       end
 *   1     program EEPROM            start       end
 *   2     read flash                start       end
 *   3     read EEPROM               start       end
 *   4     blank check of flash      start       end
 *   5     erase 0000h-1FFFh         -           -
 *   6     erase 2000h-3FFFh         -           -
 *   7     erase 4000h-7FFFh         -           -
 *   8     erase the full chip       -           -
 *   9     write configuration byte  index       value
 *   10    write HSB                 value       -
 *   11    start by reset            -           -
 *   12    start at an address       address     -
 *   13    read version              -           -
 *   14    read a byte               index       -
 *   15    read HSB                  -           -
 *
 * Outcome: the kind is bits 0-15.
 *
 *   kind  outcome              bits 16-31
 *   0     done                 -
 *   1     stall                -
 *   2     start by reset       address
 *   3     start at an address  address
 *   4     refused              number
 *
 * Done is not success. A command that the board does not take is done too, and an error status stands in the session, bits 8-15: a board
 * at level 1 answers a write with outcome 0 and status 03h, and stores nothing.
 *
 * Serial configuration: four bytes in a number of 32 bits.
 *
 *   bits 0-7     BSB
 *   bits 8-15    SBV
 *   bits 16-23   SSB
 *   bits 24-31   HSB
 *
 * Serial outcome: the kind is bits 0-15 of a number of 64 bits.
 *
 *   kind  outcome              bits 16-31
 *   0     answered             -
 *   2     start by reset       -
 *   3     start at an address  address
 *   4     refused              number
 *
 * Bits that no row names, or that have a `-`, are 0 in an answer. In a number that is lent they are not looked at; a kind of what is
 * pending that has no row counts as 0, and a kind of command that has no row as 15. Of a value that is a byte the low 8 bits count.
 */
#ifndef SIDE_BOARD_LOADER_H
#define SIDE_BOARD_LOADER_H

#include <stddef.h>
#include <stdint.h>

/* Sizes, in bytes. MOST is the most that there may be. */
#define LOADER_SETUP_SIZE 8
#define LOADER_FLASH_SIZE 32768
#define LOADER_FLASH_PAGES 256
#define LOADER_PAGE_SIZE 128
#define LOADER_EEPROM_SIZE 1024
#define LOADER_REPLY_SIZE 1024   /* or more */
#define LOADER_MOST_BYTES 1024   /* that one command programs or reads */
#define LOADER_SUFFIX_SIZE 16    /* of a program transfer */
#define LOADER_MOST_DATA 1103    /* of a DNLOAD */
#define LOADER_GETSTATUS_SIZE 6  /* wLength of GETSTATUS */
#define LOADER_GETSTATE_SIZE 1   /* and of GETSTATE */
#define LOADER_MOST_JOB 16384    /* of a job file */
#define LOADER_MOST_BUSY 256     /* pages to wait for */
#define LOADER_PAGE_TIME 10      /* milliseconds for each */
#define LOADER_SERIAL_FLASH_SIZE 65536
#define LOADER_SERIAL_FLASH_PAGES 512
#define LOADER_SERIAL_MOST_DATA 255        /* of a record */
#define LOADER_SERIAL_MOST_CHARACTERS 521  /* of a record */
#define LOADER_SERIAL_MOST_ANSWER 159744   /* characters: a display of all flash */

/* Requests: bmRequestType and bRequest as one number, 21h and 1 being 2101h. DETACH always stalls. */
#define LOADER_REQUEST_DETACH 0x2100
#define LOADER_REQUEST_DNLOAD 0x2101
#define LOADER_REQUEST_UPLOAD 0xA102
#define LOADER_REQUEST_GETSTATUS 0xA103
#define LOADER_REQUEST_CLRSTATUS 0x2104
#define LOADER_REQUEST_GETSTATE 0xA105
#define LOADER_REQUEST_ABORT 0x2106

/* States. In any other a request is refused with 6. */
#define LOADER_STATE_APP_IDLE 0       /* the board's own program runs: every request is refused with 7 */
#define LOADER_STATE_IDLE 2           /* ready for a command */
#define LOADER_STATE_DNLOAD_SYNC 3    /* a command was taken */
#define LOADER_STATE_DNBUSY 4         /* pages are still burnt: wait, then ask GETSTATUS again */
#define LOADER_STATE_DNLOAD_IDLE 5    /* the command is done: ready for the next, or for an UPLOAD of what it read */
#define LOADER_STATE_MANIFEST_SYNC 6  /* the download was ended */
#define LOADER_STATE_UPLOAD_IDLE 9    /* there is more to fetch */
#define LOADER_STATE_ERROR 10         /* only CLRSTATUS leads out */

/* Statuses. */
#define LOADER_STATUS_OK 0x00
#define LOADER_STATUS_ERR_WRITE 0x03         /* the level refused a write or an erase: nothing was stored */
#define LOADER_STATUS_ERR_CHECK_ERASED 0x05  /* the blank check met a byte that is not FFh; the state is 3 and not 10 */
#define LOADER_STATUS_ERR_ADDRESS 0x08       /* a bad address, or too many bytes: nothing was stored */
#define LOADER_STATUS_ERR_VENDOR 0x0B        /* the level refused a read */
#define LOADER_STATUS_ERR_STALLEDPK 0x0F     /* the request stalled */

/* Refusals, the numbers of outcome 4 and of those functions that answer a number. */
#define LOADER_REFUSED_SETUP_SIZE 1
#define LOADER_REFUSED_FLASH_SIZE 2    /* on the serial plug too */
#define LOADER_REFUSED_EEPROM_SIZE 3
#define LOADER_REFUSED_DATA_SIZE 4     /* not wLength bytes, or for A1h not none */
#define LOADER_REFUSED_REPLY_SIZE 5
#define LOADER_REFUSED_SESSION 6       /* an unknown state or status, a bad range or address pending, or too high a busy page count */
#define LOADER_REFUSED_APP_RUNS 7      /* the state is 0 */
#define LOADER_REFUSED_COMMAND 8       /* a command that can't be written */
#define LOADER_REFUSED_ROOM 9          /* too short */
#define LOADER_REFUSED_FIELD_END 11    /* of a job file: less than three bytes left, or a value beyond what encloses it */
#define LOADER_REFUSED_FIELD_TAG 12    /* unknown */
#define LOADER_REFUSED_GROUP_DEPTH 13  /* a group inside four others */
#define LOADER_REFUSED_REQUEST_SIZE 14 /* under 8 bytes */
#define LOADER_REFUSED_NOTE_SIZE 15    /* over 64 bytes */
#define LOADER_REFUSED_FILE_SIZE 16    /* over LOADER_MOST_JOB */
#define LOADER_REFUSED_RECORD 17       /* of the serial plug: no record, an unknown one, or one with a bad range */

/* Kinds of outcome. Done is not success: see loader_step. */
#define LOADER_OUTCOME_DONE 0
#define LOADER_OUTCOME_STALL 1
#define LOADER_OUTCOME_START_RESET 2
#define LOADER_OUTCOME_START_ADDRESS 3
#define LOADER_OUTCOME_REFUSED 4
#define LOADER_SERIAL_OUTCOME_ANSWERED 0  /* also with X or P, which are no success */
#define LOADER_SERIAL_OUTCOME_START_RESET 2
#define LOADER_SERIAL_OUTCOME_START_ADDRESS 3
#define LOADER_SERIAL_OUTCOME_REFUSED 4
#define LOADER_SERIAL_WRONG_CHECKSUM 1    /* of serial_read_record alone */

/* Kinds of what is pending, and of commands. */
#define LOADER_PENDING_NOTHING 0
#define LOADER_PENDING_READ_FLASH 1
#define LOADER_PENDING_READ_EEPROM 2
#define LOADER_PENDING_BLANK_REPORT 3
#define LOADER_PENDING_ONE_BYTE 4
#define LOADER_PENDING_START_RESET 5
#define LOADER_PENDING_START_ADDRESS 6
#define LOADER_COMMAND_PROGRAM_FLASH 0
#define LOADER_COMMAND_PROGRAM_EEPROM 1
#define LOADER_COMMAND_READ_FLASH 2
#define LOADER_COMMAND_READ_EEPROM 3
#define LOADER_COMMAND_BLANK_CHECK_FLASH 4
#define LOADER_COMMAND_ERASE_0000H_1FFFH 5
#define LOADER_COMMAND_ERASE_2000H_3FFFH 6
#define LOADER_COMMAND_ERASE_4000H_7FFFH 7
#define LOADER_COMMAND_ERASE_FULL_CHIP 8
#define LOADER_COMMAND_WRITE_CONFIGURATION_BYTE 9
#define LOADER_COMMAND_WRITE_HSB 10
#define LOADER_COMMAND_START_RESET 11
#define LOADER_COMMAND_START_ADDRESS 12
#define LOADER_COMMAND_READ_VERSION 13
#define LOADER_COMMAND_READ_BYTE 14
#define LOADER_COMMAND_READ_HSB 15

/* Indexes of the configuration bytes, and the SSB of each level: any other value is level 2 too. */
#define LOADER_INDEX_BSB 0
#define LOADER_INDEX_SBV 1
#define LOADER_INDEX_P1_CF 2
#define LOADER_INDEX_P3_CF 3
#define LOADER_INDEX_P4_CF 4
#define LOADER_INDEX_SSB 5
#define LOADER_INDEX_EB 6
#define LOADER_SSB_LEVEL_0 0xFF
#define LOADER_SSB_LEVEL_1 0xFE
#define LOADER_SSB_LEVEL_2 0xFC

#ifdef __cplusplus
extern "C" {
#endif

/* Takes one request and answers its outcome. Session, busy page count, configuration, memories and reply are changed in place; *count
 * gets how many bytes of the reply are sent, *pages how many pages were stored. Refused, both are 0 and all else stays as it was, bit for
 * bit.
 *
 * Outcome 0, done, is not success. Of a command that the board does not take, as a write at level 1 or one to a bad address, the outcome
 * is 0 too, and nothing is stored. The status says so: it stands in bits 8-15 of the session, and loader_status gives it. Look at it after
 * each call, not later: CLRSTATUS makes it 0x00 and stores nothing. */
uint64_t loader_step(
    uint64_t *session,
    uint16_t *busy,
    uint64_t *config,
    const uint8_t *setup, size_t setup_size,
    const uint8_t *sent, size_t sent_size,
    uint8_t *flash, size_t flash_size,
    uint8_t *eeprom, size_t eeprom_size,
    uint8_t *reply, size_t reply_size,
    size_t *count,
    size_t *pages);

/* The session after power-up. *busy gets 0, the busy page count that goes with it. */
uint64_t loader_power_up(
    uint16_t *busy);

/* The configuration of a board as it is delivered: 0xBBFFFFFFFFFEFCFF. */
uint64_t loader_delivered(void);

/* Reads the data of a DNLOAD: 0x00 with the command and the places where its body and its suffix begin; 0x0F for a stall or 0x08 for a
 * wrong address, and then all three stay as they were. */
uint8_t loader_read_command(
    const uint8_t *sent, size_t sent_size,
    uint64_t *command,
    size_t *body,
    size_t *suffix);

/* Writes a command into the room, a program transfer with its body and its suffix: 0, or 8 or 9 where it refuses, and then the room stays
 * as it was. *count gets how many bytes were written, 0 where it refuses. */
uint8_t loader_write_command(
    uint64_t command,
    const uint8_t *body, size_t body_size,
    const uint8_t *suffix, size_t suffix_size,
    uint8_t *room, size_t room_size,
    size_t *count);

/* The verdict on a job file: 0, or the number of its refusal. *at gets the offset of the bad field's tag, 0 where there is none. */
uint8_t loader_check_job(
    const uint8_t *file, size_t file_size,
    size_t *at);

/* How many requests a job holds, through all its groups; 0 of a file that is too long. Its calls inside each other take up to 262,176 bytes
 * of stack; no other function takes over 968. */
size_t loader_count_requests(
    const uint8_t *file, size_t file_size);

/* The serial plug. Takes one record, its characters from the mark to the checksum, and answers its outcome. Configuration, flash and room
 * are changed in place; *count gets how many characters of the answer stand at the front of the room, *pages how many pages were stored.
 * Refused, both are 0 and all else stays as it was, bit for bit.
 *
 * Outcome 0, answered, is not success: the answer may be X for a wrong checksum or P where the level refuses, and then nothing was
 * stored. */
uint64_t serial_step(
    uint32_t *config,
    const uint8_t *characters, size_t characters_size,
    uint8_t *flash, size_t flash_size,
    uint8_t *room, size_t room_size,
    size_t *count,
    size_t *pages);

/* The configuration of a board as it is delivered: 0xBBFCF0FF. */
uint32_t serial_delivered(void);

/* Reads the characters of a record, from its mark to its checksum: 0 with the data at the front of the room, its load
 * offset, its type and how many bytes of data there are; 1 for a wrong checksum, 17 for a record that is none or 9 for a room that is
 * too short, and then the room and the three numbers stay as they were. */
uint8_t serial_read_record(
    const uint8_t *characters, size_t characters_size,
    uint8_t *room, size_t room_size,
    uint16_t *offset,
    uint8_t *kind,
    size_t *count);

/* Writes a record into the room: 0, or 17 for more than 255 bytes of data, or 9 for a room that is too short, and then the room stays as
 * it was. *count gets how many characters were written, 0 where it refuses. */
uint8_t serial_write_record(
    uint16_t offset,
    uint8_t kind,
    const uint8_t *sent, size_t sent_size,
    uint8_t *room, size_t room_size,
    size_t *count);

/* ---- parts of numbers, as the tables above have them */

static inline uint8_t loader_state(uint64_t session) { return (uint8_t)(session & 0xFF); }
static inline uint8_t loader_status(uint64_t session) { return (uint8_t)(session >> 8 & 0xFF); }

/* What is pending: its kind, and its two numbers. */
static inline uint16_t loader_pending(uint64_t session) { return (uint16_t)(session >> 16 & 0xFFFF); }
static inline uint16_t loader_pending_first(uint64_t session) { return (uint16_t)(session >> 32 & 0xFFFF); }
static inline uint16_t loader_pending_last(uint64_t session) { return (uint16_t)(session >> 48 & 0xFFFF); }

/* An outcome's kind and, of a start or a refusal, its address or number; also of the serial plug. */
static inline uint16_t loader_outcome_kind(uint64_t outcome) { return (uint16_t)(outcome & 0xFFFF); }
static inline uint16_t loader_outcome_value(uint64_t outcome) { return (uint16_t)(outcome >> 16 & 0xFFFF); }

/* Whether the command of a DNLOAD was taken, by the outcome of its loader_step and the session right after it. A blank check that met
 * a byte which is not FFh counts as not taken. The session is lent, so that the call of loader_step may stand in the outcome's place: by
 * value C might take the session from before it. */
static inline int loader_taken(uint64_t outcome, const uint64_t *session) {
    return loader_outcome_kind(outcome) == LOADER_OUTCOME_DONE && loader_status(*session) == LOADER_STATUS_OK;
}

/* A configuration's byte: 0 is BSB, and so on to 7, HSB. Of the first seven it is their index. */
static inline uint8_t loader_config_byte(uint64_t config, unsigned place) { return (uint8_t)(config >> 8 * (place & 7) & 0xFF); }

/* The number of a command, by its kind and its two numbers; of a number that the kind has no use for, 0. */
static inline uint64_t loader_command(uint16_t kind, uint16_t first, uint16_t last) {
    return kind | (uint64_t)first << 16 | (uint64_t)last << 32;
}

/* The setup of a request, with wLength; wValue and wIndex are 0. */
static inline void loader_setup(uint8_t *setup, uint16_t request, uint16_t length) {
    setup[0] = (uint8_t)(request >> 8);
    setup[1] = (uint8_t)(request & 0xFF);
    setup[2] = setup[3] = setup[4] = setup[5] = 0;
    setup[6] = (uint8_t)(length & 0xFF);
    setup[7] = (uint8_t)(length >> 8);
}

/* How many milliseconds the six bytes of a GETSTATUS tell the host to wait. */
static inline uint32_t loader_wait(const uint8_t *reply) { return reply[1] | (uint32_t)reply[2] << 8 | (uint32_t)reply[3] << 16; }

#ifdef __cplusplus
}
#endif

#endif
