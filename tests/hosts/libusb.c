// A stand-in for the library through which a host's program reaches USB. It shows a single device, a board in DFU mode, and hands
// every control transfer to the proved loader. No USB is touched.
//
// The board is kept in the file that BOARD names, so that one run of the program finds it as the run before left it; the requests
// go, a line each, to the end of the file that REQUESTS names. tests/hosts/board.py reads and writes both.
//
// Only what dfu-programmer calls is here. Names, numbers and the order of fields are those of libusb 1.0.
#include <stdint.h>
#include <stdio.h>
#include <stdlib.h>
#include <string.h>

#include "side_board_loader.h"

enum { SUCCESS = 0, ERROR_NO_DEVICE = -4, ERROR_NOT_FOUND = -5, ERROR_PIPE = -9 };
enum { DEVICE_TO_HOST = 0x80 };

// ---- the board and its file; the layout of the numbers stands in crates/exports/c/side_board_loader.h

static struct {
    uint64_t session, config;
    uint16_t busy, unused[3]; // unused, so that the compiler leaves no gap in the file
    uint8_t flash[LOADER_FLASH_SIZE], eeprom[LOADER_EEPROM_SIZE];
} board;

static uint8_t state(void) { return loader_state(board.session); }

// Opens the file that a variable names. A run without its board would show nothing, so it ends here.
static FILE *file_of(const char *variable, const char *mode) {
    const char *name = getenv(variable);
    FILE *file = name ? fopen(name, mode) : NULL;
    if (!file) {
        fprintf(stderr, "stand-in: %s names no file that can be opened\n", variable);
        exit(3);
    }
    return file;
}

static void transfer_board(const char *mode) {
    FILE *file = file_of("BOARD", mode);
    size_t moved = *mode == 'r' ? fread(&board, sizeof board, 1, file) : fwrite(&board, sizeof board, 1, file);
    if (fclose(file) || moved != 1) {
        fprintf(stderr, "stand-in: the board's file is not whole\n");
        exit(3);
    }
}

// ---- the record of requests

static void put_hex(FILE *file, const uint8_t *bytes, size_t count) {
    if (!count) fputc('-', file);
    for (size_t i = 0; i < count; i++) fprintf(file, "%02X", bytes[i]);
}

// Setup and data, and then what a line of the bench program says: outcome, state, status, pages and reply.
static void record(const uint8_t *setup, const uint8_t *sent, size_t sent_size, uint64_t outcome, size_t pages, const uint8_t *reply, size_t count) {
    static const char *const words[] = {"done", "stall", "start", "start", "ref"};
    FILE *file = file_of("REQUESTS", "a");
    put_hex(file, setup, LOADER_SETUP_SIZE);
    fputc(' ', file);
    put_hex(file, sent, sent_size);
    fprintf(file, " %s", words[loader_outcome_kind(outcome)]);
    if (loader_outcome_kind(outcome) == LOADER_OUTCOME_REFUSED) fprintf(file, "%u", loader_outcome_value(outcome));
    fprintf(file, " %u %02X %zu ", state(), loader_status(board.session), pages);
    put_hex(file, reply, count);
    fputc('\n', file);
    fclose(file);
}

// ---- the device and its descriptors

typedef struct libusb_context libusb_context;
typedef struct libusb_device { int unused; } libusb_device;
typedef struct libusb_device_handle { int unused; } libusb_device_handle;

struct device_descriptor {
    uint8_t length, type;
    uint16_t usb;
    uint8_t class, subclass, protocol, max_packet;
    uint16_t vendor, product, device;
    uint8_t manufacturer_string, product_string, serial_string, configurations;
};
struct interface_descriptor {
    uint8_t length, type, number, alternate, endpoints, class, subclass, protocol, string;
    const void *endpoint;
    const unsigned char *extra;
    int extra_size;
};
struct interface {
    const struct interface_descriptor *settings;
    int setting_count;
};
struct config_descriptor {
    uint8_t length, type;
    uint16_t total;
    uint8_t interfaces, value, string, attributes, power;
    const struct interface *interface;
    const unsigned char *extra;
    int extra_size;
};

static libusb_device the_device;
static libusb_device_handle the_handle;

int libusb_init(libusb_context **context) {
    (void)context;
    transfer_board("rb");
    return SUCCESS;
}
void libusb_exit(libusb_context *context) { (void)context; }
void libusb_set_debug(libusb_context *context, int level) { (void)context, (void)level; }

// A board whose own program runs has left the DFU mode, and no device is found.
ssize_t libusb_get_device_list(libusb_context *context, libusb_device ***list) {
    (void)context;
    static libusb_device *found[2];
    found[0] = state() == LOADER_STATE_APP_IDLE ? NULL : &the_device;
    *list = found;
    return found[0] != NULL;
}
void libusb_free_device_list(libusb_device **list, int unref) { (void)list, (void)unref; }
uint8_t libusb_get_bus_number(libusb_device *device) { return (void)device, 1; }
uint8_t libusb_get_device_address(libusb_device *device) { return (void)device, 1; }

int libusb_get_device_descriptor(libusb_device *device, struct device_descriptor *out) {
    (void)device;
    *out = (struct device_descriptor){18, 1, 0x0100, 0, 0, 0, 32, 0x03EB, 0x2FFD, 0x0000, 0, 0, 0, 1};
    return SUCCESS;
}

// One interface, of the class that the DFU document gives.
int libusb_get_config_descriptor(libusb_device *device, uint8_t index, struct config_descriptor **out) {
    static const struct interface_descriptor setting = {.length = 9, .type = 4, .class = 0xFE, .subclass = 1};
    static const struct interface only = {&setting, 1};
    static struct config_descriptor config = {.length = 9, .type = 2, .total = 18, .interfaces = 1, .value = 1, .interface = &only};
    (void)device;
    if (index) return ERROR_NOT_FOUND;
    *out = &config;
    return SUCCESS;
}
void libusb_free_config_descriptor(struct config_descriptor *config) { (void)config; }

int libusb_open(libusb_device *device, libusb_device_handle **handle) {
    (void)device;
    *handle = &the_handle;
    return SUCCESS;
}
void libusb_close(libusb_device_handle *handle) { (void)handle; }
int libusb_set_configuration(libusb_device_handle *handle, int value) { return (void)handle, (void)value, SUCCESS; }
int libusb_claim_interface(libusb_device_handle *handle, int number) { return (void)handle, (void)number, SUCCESS; }
int libusb_release_interface(libusb_device_handle *handle, int number) { return (void)handle, (void)number, SUCCESS; }
// 01 says nothing of a reset of the bus, so a program that asks for one can't be measured here.
int libusb_reset_device(libusb_device_handle *handle) {
    (void)handle;
    fprintf(stderr, "stand-in: a reset of the bus was asked for\n");
    exit(3);
}

// ---- requests

static void set_word(uint8_t *at, uint16_t word) {
    at[0] = word & 0xFF;
    at[1] = word >> 8;
}

// What a host sees of an outcome: a stall is a broken pipe, and what the loader refuses goes unanswered, as from a device that left.
static int seen(uint64_t outcome, int length) {
    switch (loader_outcome_kind(outcome)) {
    case LOADER_OUTCOME_STALL: return ERROR_PIPE;
    case LOADER_OUTCOME_REFUSED: return ERROR_NO_DEVICE;
    default: return length;
    }
}

int libusb_control_transfer(libusb_device_handle *handle, uint8_t type, uint8_t request, uint16_t value, uint16_t index,
                            unsigned char *data, uint16_t length, unsigned timeout) {
    (void)handle, (void)timeout;
    uint8_t setup[LOADER_SETUP_SIZE] = {type, request}, reply[LOADER_REPLY_SIZE];
    set_word(setup + 2, value);
    set_word(setup + 4, index);
    set_word(setup + 6, length);
    size_t sent_size = type & DEVICE_TO_HOST ? 0 : length, count = 0, pages = 0;
    // The loader wants a pointer that leads somewhere, for no bytes too.
    const uint8_t *sent = sent_size ? data : setup;
    uint64_t outcome = loader_step(&board.session, &board.busy, &board.config, setup, LOADER_SETUP_SIZE, sent, sent_size, board.flash,
                                   sizeof board.flash, board.eeprom, sizeof board.eeprom, reply, LOADER_REPLY_SIZE, &count, &pages);
    record(setup, sent, sent_size, outcome, pages, reply, count);
    transfer_board("wb");
    // No answer is longer than wLength, which is the room that the host has.
    if (type & DEVICE_TO_HOST) memcpy(data, reply, count);
    return seen(outcome, type & DEVICE_TO_HOST ? (int)count : length);
}
