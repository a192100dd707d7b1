/*
 * The drive card from C: a host that wants the automatic speed sets it, two blocks and a filemark go onto a cartridge in memory
 * behind a locked door and come back, a packet that was cut is refused, an index of the filemarks tells where each file starts, the
 * cartridge goes through a SIMH tape file onto another one, the floppy device rewrites a block in place and tells of a marked one, and
 * a pulse drive is recovered by 46 trains in one call.
 *
 *     cc -std=c99 -Wall -Wextra -Werror -Iinclude examples/c/card.c target/staticlib/libtapecard.a -o card
 */
#include <inttypes.h>
#include <stdio.h>
#include <string.h>

#include "tapecard.h"

enum {
    BLOCK_SIZE = 512,
    CAPACITY = 4,
    KINDS_AT = TAPECARD_IMAGE_HEADER_LENGTH,
    BLOCKS_AT = KINDS_AT + CAPACITY,
    IMAGE_LENGTH = BLOCKS_AT + CAPACITY * BLOCK_SIZE,
    INDEX_LENGTH = CAPACITY * TAPECARD_INDEX_ENTRY_LENGTH,
    FILE_LENGTH = TAPECARD_FILE_MOST_BYTES(CAPACITY, BLOCK_SIZE),
    STATUS_AT = 18, /* in the recovery: eighteen 2s before it and nine behind */
    ERROR_AT = 28,  /* seventeen 2s behind */
    RECOVERY_LENGTH = 46
};

/* Lent where a packet transfers nothing. */
static uint8_t no_data[1];

/* A packet drive (the stream device) with the cartridge that is in it. */
struct packet_drive {
    uint8_t record[TAPECARD_PACKET_RECORD_LENGTH];
    uint8_t image[IMAGE_LENGTH];
    uint8_t answer[TAPECARD_PACKET_ANSWER_LENGTH];
};

/* The same with an index of the cartridge's filemarks. */
struct indexed_drive {
    struct packet_drive drive;
    uint8_t index[INDEX_LENGTH];
};

/* The same as the floppy device. */
struct floppy_drive {
    uint8_t record[TAPECARD_FLOPPY_RECORD_LENGTH];
    uint8_t image[IMAGE_LENGTH];
    uint8_t answer[TAPECARD_PACKET_ANSWER_LENGTH];
};

static void put_number(uint8_t *at, int length, uint32_t value)
{
    while (length > 0) {
        length--;
        at[length] = (uint8_t)(value % 256);
        value = value / 256;
    }
}

static uint32_t number_at(const uint8_t *at, int length)
{
    uint32_t value = 0;
    int i;

    for (i = 0; i < length; i++)
        value = value * 256 + at[i];
    return value;
}

static const char *yes_or_no(int truth)
{
    return truth ? "yes" : "no";
}

static void make_blank_cartridge(uint8_t image[IMAGE_LENGTH])
{
    memset(image, 0, IMAGE_LENGTH);
    put_number(image + TAPECARD_IMAGE_LENGTH_AT, 2, TAPECARD_IMAGE_HEADER_LENGTH);
    put_number(image + TAPECARD_IMAGE_BLOCK_SIZE_AT, 2, BLOCK_SIZE);
    put_number(image + TAPECARD_IMAGE_CAPACITY_AT, 4, CAPACITY);
    put_number(image + TAPECARD_IMAGE_KINDS_AT, 4, KINDS_AT);
    put_number(image + TAPECARD_IMAGE_BLOCKS_AT, 4, BLOCKS_AT);
}

/* Both devices' records begin alike. */
static void print_answer(const char *name, const uint8_t *record, const uint8_t *answer)
{
    printf("%-18s", name);
    if (answer[TAPECARD_ANSWER_NUMBER_AT] != TAPECARD_ACCEPTED) {
        printf("refused, number %u\n", (unsigned)answer[TAPECARD_ANSWER_NUMBER_AT]);
        return;
    }
    printf("%s, ", answer[TAPECARD_ANSWER_STATUS_AT] == TAPECARD_STATUS_GOOD ? "GOOD" : "CHECK CONDITION");
    printf("blocks %" PRIu32 ", ", number_at(answer + TAPECARD_ANSWER_BLOCKS_AT, 4));
    if (number_at(answer + TAPECARD_ANSWER_MARKED_AT, 4) != 0)
        printf("%" PRIu32 " marked, ", number_at(answer + TAPECARD_ANSWER_MARKED_AT, 4));
    printf("bytes %" PRIu32 ", ", number_at(answer + TAPECARD_ANSWER_BYTES_AT, 4));
    printf("position %" PRIu32, number_at(record + TAPECARD_POSITION_AT, 4));
    if (answer[TAPECARD_ANSWER_STATUS_AT] != TAPECARD_STATUS_GOOD)
        printf(", sense %X/%02X/%02X", (unsigned)record[TAPECARD_SENSE_KEY_AT], (unsigned)record[TAPECARD_SENSE_ASC_AT],
               (unsigned)record[TAPECARD_SENSE_ASCQ_AT]);
    if (record[TAPECARD_SENSE_FLAGS_AT] & TAPECARD_SENSE_VALID)
        printf(", residue %" PRIu32, number_at(record + TAPECARD_INFORMATION_AT, 4));
    printf("\n");
}

/* A packet with a count in bytes 2-4 and a lent buffer. */
static void send_packet(struct packet_drive *drive, const char *name, uint8_t opcode, uint32_t count, uint8_t *data,
                        size_t data_length)
{
    uint8_t packet[TAPECARD_PACKET_LENGTH] = {0};

    packet[0] = opcode;
    packet[1] = 1;
    put_number(packet + 2, 3, count);
    tapecard_packet(drive->record, drive->image, sizeof drive->image, packet, sizeof packet, data, data_length,
                    drive->answer);
    print_answer(name, drive->record, drive->answer);
}

/* A fresh drive starts at speed 250; a host that wants another one sets it. */
static void set_speed(struct packet_drive *drive, uint16_t speed)
{
    static const uint8_t select[TAPECARD_PACKET_LENGTH] = {TAPECARD_MODE_SELECT, 0, 0, 0, TAPECARD_LIST_LENGTH};
    uint8_t list[TAPECARD_LIST_LENGTH] = {0};

    printf("speed %" PRIu32 "\n", number_at(drive->record + TAPECARD_SPEED_AT, 2));
    put_number(list + TAPECARD_LIST_PAGE_AT, 2, TAPECARD_LIST_PAGE);
    put_number(list + TAPECARD_LIST_SPEED_AT, 2, speed);
    tapecard_packet(drive->record, drive->image, sizeof drive->image, select, sizeof select, list, sizeof list,
                    drive->answer);
    print_answer("MODE SELECT", drive->record, drive->answer);
    printf("speed %" PRIu32 "\n", number_at(drive->record + TAPECARD_SPEED_AT, 2));
}

static void write_and_read_back(struct packet_drive *drive)
{
    static const char lines[2][32] = {"The quick brown fox", "jumps over the lazy dog"};
    uint8_t written[2 * BLOCK_SIZE] = {0};
    uint8_t read[3 * BLOCK_SIZE] = {0};

    memcpy(written, lines[0], sizeof lines[0]);
    memcpy(written + BLOCK_SIZE, lines[1], sizeof lines[1]);
    send_packet(drive, "REWIND", TAPECARD_REWIND, 0, no_data, 0);
    send_packet(drive, "PREVENT REMOVAL", TAPECARD_PREVENT_ALLOW, 1, no_data, 0);
    send_packet(drive, "WRITE 2", TAPECARD_WRITE, 2, written, sizeof written);
    send_packet(drive, "UNLOAD", TAPECARD_LOAD_UNLOAD, 0, no_data, 0); /* an operator, too early */
    send_packet(drive, "WRITE FILEMARK 1", TAPECARD_WRITE_FILEMARK, 1, no_data, 0);
    send_packet(drive, "ALLOW REMOVAL", TAPECARD_PREVENT_ALLOW, 0, no_data, 0);
    send_packet(drive, "REWIND", TAPECARD_REWIND, 0, no_data, 0);
    send_packet(drive, "READ 3", TAPECARD_READ, 3, read, sizeof read);
    printf("read: %s %s\n", (char *)read, (char *)read + BLOCK_SIZE);
    printf("as written: %s\n", yes_or_no(memcmp(read, written, sizeof written) == 0));
}

static void send_cut_packet(struct packet_drive *drive)
{
    static const uint8_t cut[TAPECARD_PACKET_LENGTH - 1] = {TAPECARD_WRITE, 1, 0, 0, 1};
    uint8_t data[BLOCK_SIZE] = {0};
    const struct packet_drive before = *drive;
    int same;

    tapecard_packet(drive->record, drive->image, sizeof drive->image, cut, sizeof cut, data, sizeof data, drive->answer);
    print_answer("11 bytes", drive->record, drive->answer);
    same = memcmp(before.record, drive->record, sizeof before.record) == 0 &&
           memcmp(before.image, drive->image, sizeof before.image) == 0;
    printf("record and image as before: %s\n", yes_or_no(same));
}

static void make_index(struct indexed_drive *indexed)
{
    struct packet_drive *drive = &indexed->drive;

    tapecard_index_make(drive->image, sizeof drive->image, indexed->index, sizeof indexed->index, drive->answer);
    printf("index of %" PRIu32 " bytes, ", number_at(drive->answer + TAPECARD_ANSWER_BYTES_AT, 4));
    printf("filemarks %" PRIu32 "\n", number_at(drive->answer + TAPECARD_ANSWER_BLOCKS_AT, 4));
}

/* As send_packet, with the index, which stays that of the cartridge. Byte 1 is 1: SPACE goes over filemarks. */
static void send_with_index(struct indexed_drive *indexed, const char *name, uint8_t opcode, uint32_t count, uint8_t *data,
                            size_t data_length)
{
    struct packet_drive *drive = &indexed->drive;
    uint8_t packet[TAPECARD_PACKET_LENGTH] = {0};

    packet[0] = opcode;
    packet[1] = 1;
    put_number(packet + 2, 3, count);
    tapecard_index_packet(drive->record, drive->image, sizeof drive->image, indexed->index, sizeof indexed->index, packet,
                          sizeof packet, data, data_length, drive->answer);
    print_answer(name, drive->record, drive->answer);
}

/* The first file starts at 0, each other one behind a filemark, where something is recorded there. */
static void print_starts(const struct indexed_drive *indexed)
{
    const uint32_t recorded = number_at(indexed->drive.image + TAPECARD_IMAGE_RECORDED_AT, 4);
    size_t at;

    printf("files start at 0");
    for (at = 0; at < sizeof indexed->index; at += TAPECARD_INDEX_ENTRY_LENGTH) {
        const uint32_t place = number_at(indexed->index + at, TAPECARD_INDEX_ENTRY_LENGTH);

        if (place == TAPECARD_INDEX_NO_FILEMARK)
            break;
        if (place + 1 < recorded)
            printf(", %" PRIu32, place + 1);
    }
    printf("\n");
}

static void use_index(const struct packet_drive *drive)
{
    const uint32_t back_1 = 0xFFFFFF; /* -1 in two's complement */
    uint8_t written[BLOCK_SIZE] = "a second file";
    struct indexed_drive indexed;

    indexed.drive = *drive;
    make_index(&indexed);
    print_starts(&indexed);
    send_with_index(&indexed, "REWIND", TAPECARD_REWIND, 0, no_data, 0);
    send_with_index(&indexed, "SPACE 1 filemark", TAPECARD_SPACE, 1, no_data, 0);
    send_with_index(&indexed, "WRITE 1", TAPECARD_WRITE, 1, written, sizeof written);
    print_starts(&indexed);
    indexed.index[0] = 1; /* an index that is not the cartridge's */
    send_with_index(&indexed, "SPACE -1 filemark", TAPECARD_SPACE, back_1, no_data, 0);
    make_index(&indexed);
    send_with_index(&indexed, "SPACE -1 filemark", TAPECARD_SPACE, back_1, no_data, 0);
}

static void print_exchange(const char *name, const uint8_t *answer)
{
    printf("%-18s", name);
    if (answer[TAPECARD_ANSWER_NUMBER_AT] != TAPECARD_ACCEPTED) {
        printf("refused, number %u\n", (unsigned)answer[TAPECARD_ANSWER_NUMBER_AT]);
        return;
    }
    printf("elements %" PRIu32 ", ", number_at(answer + TAPECARD_ANSWER_BLOCKS_AT, 4));
    printf("bytes %" PRIu32 "\n", number_at(answer + TAPECARD_ANSWER_BYTES_AT, 4));
}

/* A file that lost its last byte is not taken, though all its records are whole. */
static void import_cut_file(struct packet_drive *drive, const uint8_t *file, size_t file_length)
{
    const struct packet_drive before = *drive;
    int same;

    tapecard_import(drive->record, drive->image, sizeof drive->image, file, file_length - 1, drive->answer);
    print_exchange("a cut file", drive->answer);
    same = memcmp(before.record, drive->record, sizeof before.record) == 0 &&
           memcmp(before.image, drive->image, sizeof before.image) == 0;
    printf("record and image as before: %s\n", yes_or_no(same));
}

/* By a tape file onto a blank cartridge, which the drive then tells of as changed. */
static void exchange_by_file(const struct packet_drive *drive)
{
    uint8_t file[FILE_LENGTH];
    uint8_t read[2 * BLOCK_SIZE];
    struct packet_drive other;
    size_t file_length;

    tapecard_export(drive->image, sizeof drive->image, file, sizeof file, other.answer);
    print_exchange("export", other.answer);
    file_length = number_at(other.answer + TAPECARD_ANSWER_BYTES_AT, 4);
    make_blank_cartridge(other.image);
    tapecard_fresh(other.record);
    import_cut_file(&other, file, file_length);
    tapecard_import(other.record, other.image, sizeof other.image, file, file_length, other.answer);
    print_exchange("import", other.answer);
    send_packet(&other, "TEST UNIT READY", TAPECARD_TEST_UNIT_READY, 0, no_data, 0);
    send_packet(&other, "READ 2", TAPECARD_READ, 2, read, sizeof read);
    printf("read: %s %s\n", (char *)read, (char *)read + BLOCK_SIZE);
}

static void use_packet_drive(void)
{
    struct packet_drive drive;

    make_blank_cartridge(drive.image);
    tapecard_fresh(drive.record);
    printf("packet drive, a blank cartridge of %d elements\n", CAPACITY);
    send_packet(&drive, "TEST UNIT READY", TAPECARD_TEST_UNIT_READY, 0, no_data, 0);
    set_speed(&drive, 0);
    write_and_read_back(&drive);
    send_cut_packet(&drive);
    use_index(&drive);
    exchange_by_file(&drive);
}

static void send_to_floppy(struct floppy_drive *drive, const char *name, const uint8_t packet[TAPECARD_PACKET_LENGTH],
                           uint8_t *data, size_t data_length)
{
    tapecard_floppy_packet(drive->record, drive->image, sizeof drive->image, packet, TAPECARD_PACKET_LENGTH, data,
                           data_length, drive->answer);
    print_answer(name, drive->record, drive->answer);
}

static void rewrite_block_1(struct floppy_drive *drive)
{
    static const uint8_t locate_0[TAPECARD_PACKET_LENGTH] = {TAPECARD_LOCATE};
    static const uint8_t locate_1[TAPECARD_PACKET_LENGTH] = {TAPECARD_LOCATE, 0, 0, 0, 0, 0, 1};
    static const uint8_t write_1[TAPECARD_PACKET_LENGTH] = {TAPECARD_WRITE, 1, 0, 0, 1};
    static const uint8_t read_3[TAPECARD_PACKET_LENGTH] = {TAPECARD_READ, 1, 0, 0, 3};
    uint8_t expected[3 * BLOCK_SIZE];
    uint8_t written[BLOCK_SIZE] = "redrawn";
    uint8_t read[3 * BLOCK_SIZE];

    memcpy(expected, drive->image + BLOCKS_AT, sizeof expected);
    memcpy(expected + BLOCK_SIZE, written, sizeof written);
    send_to_floppy(drive, "LOCATE 1", locate_1, no_data, 0);
    send_to_floppy(drive, "WRITE 1", write_1, written, sizeof written);
    send_to_floppy(drive, "LOCATE 0", locate_0, no_data, 0);
    send_to_floppy(drive, "READ 3", read_3, read, sizeof read);
    printf("read: %s, %s, %s\n", (char *)read, (char *)read + BLOCK_SIZE, (char *)read + 2 * BLOCK_SIZE);
    printf("block 1 new, its neighbours as before: %s\n", yes_or_no(memcmp(read, expected, sizeof read) == 0));
}

static void use_floppy_device(void)
{
    static const uint8_t test_unit_ready[TAPECARD_PACKET_LENGTH] = {TAPECARD_TEST_UNIT_READY};
    struct floppy_drive drive;
    int block;

    printf("floppy device\n");
    make_blank_cartridge(drive.image);
    tapecard_floppy_fresh(drive.record, drive.image, sizeof drive.image, drive.answer);
    print_answer("a blank cartridge", drive.record, drive.answer);
    put_number(drive.image + TAPECARD_IMAGE_RECORDED_AT, 4, CAPACITY);
    memset(drive.image + KINDS_AT, TAPECARD_KIND_DATA, CAPACITY);
    drive.image[KINDS_AT] = TAPECARD_KIND_MARKED; /* as a floppy tape marks its header out */
    for (block = 0; block < CAPACITY; block++)
        sprintf((char *)drive.image + BLOCKS_AT + block * BLOCK_SIZE, "glyph %d", block);
    tapecard_floppy_fresh(drive.record, drive.image, sizeof drive.image, drive.answer);
    print_answer("a full cartridge", drive.record, drive.answer);
    send_to_floppy(&drive, "TEST UNIT READY", test_unit_ready, no_data, 0);
    rewrite_block_1(&drive);
}

static void train(uint8_t *record, uint16_t pulses)
{
    uint8_t answer[TAPECARD_PULSE_ANSWER_LENGTH];

    tapecard_pulse_train(record, pulses, answer);
}

static void print_pulse_drive(const char *when, const uint8_t *record)
{
    const uint8_t flags = record[TAPECARD_PULSE_FLAGS_AT];

    printf("%s: error %u, place %" PRIu32 ", %s, new mark %s, referenced %s\n", when,
           (unsigned)record[TAPECARD_PULSE_ERROR_AT], number_at(record + TAPECARD_PULSE_PLACE_AT, 2),
           record[TAPECARD_PULSE_MOTION_AT] == TAPECARD_PULSE_STILL ? "ready" : "moving",
           yes_or_no(flags & TAPECARD_PULSE_NEW_MARK), yes_or_no(flags & TAPECARD_PULSE_REFERENCED));
}

static void put_cartridge_in(uint8_t *record)
{
    uint8_t cartridge[TAPECARD_CARTRIDGE_LENGTH] = {0};
    uint8_t answer[TAPECARD_PULSE_ANSWER_LENGTH];

    put_number(cartridge + TAPECARD_CARTRIDGE_SEGMENTS_AT, 2, 207);
    cartridge[TAPECARD_CARTRIDGE_TRACKS_AT] = 28;
    put_number(cartridge + TAPECARD_CARTRIDGE_PLACE_AT, 2, 50);
    cartridge[TAPECARD_CARTRIDGE_FLAGS_AT] = TAPECARD_CARTRIDGE_BURST;
    cartridge[TAPECARD_CARTRIDGE_FORMAT_AT] = 2;
    cartridge[TAPECARD_CARTRIDGE_TYPE_AT] = 1;
    tapecard_pulse_insert(record, cartridge, answer);
    print_pulse_drive("cartridge in", record);
    tapecard_pulse_wait(record, 4095, answer);
    printf("loaded after %" PRIu32 " ticks\n", number_at(answer + TAPECARD_PULSE_ANSWER_TICKS_AT, 4));
}

/* A host that puts a 0 in its list sends nothing. */
static void send_wrong_list(uint8_t *record)
{
    static const uint16_t counts[3] = {6, 0, 2};
    static const uint8_t unwritten[3] = {9, 9, 9};
    uint8_t before[TAPECARD_PULSE_RECORD_LENGTH];
    uint8_t answer[TAPECARD_PULSE_ANSWER_LENGTH];
    uint8_t levels[3];
    int same;

    memcpy(before, record, sizeof before);
    memcpy(levels, unwritten, sizeof levels);
    tapecard_pulse_trains(record, counts, 3, levels, sizeof levels, answer);
    printf("a list with a 0: refused, number %u\n", (unsigned)answer[TAPECARD_ANSWER_NUMBER_AT]);
    same = memcmp(before, record, sizeof before) == 0 && memcmp(unwritten, levels, sizeof levels) == 0;
    printf("record and levels as before: %s\n", yes_or_no(same));
}

/* A train and the 2s behind it. */
static void print_levels(const uint16_t *counts, const uint8_t *levels, int from, int to)
{
    int i;

    printf("%2u:", (unsigned)counts[from]);
    for (i = from; i < to; i++)
        printf(" %u", (unsigned)levels[i]);
    printf("\n");
}

/* Eight bits of a report, the lowest first. */
static unsigned bits_at(const uint8_t *levels)
{
    unsigned value = 0;
    int bit;

    for (bit = 7; bit >= 0; bit--)
        value = 2 * value + levels[bit];
    return value;
}

/* Eighteen 2s close whatever report is open; status and error are then asked, all in one call. */
static void send_recovery(uint8_t *record)
{
    uint8_t answer[TAPECARD_PULSE_ANSWER_LENGTH];
    uint16_t counts[RECOVERY_LENGTH];
    uint8_t levels[RECOVERY_LENGTH];
    int i;

    for (i = 0; i < RECOVERY_LENGTH; i++)
        counts[i] = 2;
    counts[STATUS_AT] = 6;
    counts[ERROR_AT] = 7;
    tapecard_pulse_trains(record, counts, RECOVERY_LENGTH, levels, sizeof levels, answer);
    print_levels(counts, levels, 0, STATUS_AT);
    print_levels(counts, levels, STATUS_AT, ERROR_AT);
    print_levels(counts, levels, ERROR_AT, RECOVERY_LENGTH);
    printf("the levels spell error %u, command %u\n", bits_at(levels + ERROR_AT + 1), bits_at(levels + ERROR_AT + 9));
}

static void recover_pulse_drive(void)
{
    uint8_t record[TAPECARD_PULSE_RECORD_LENGTH];

    tapecard_pulse_power_on(record, 0x0157, 0x17);
    printf("pulse drive\n");
    put_cartridge_in(record);
    train(record, 33); /* a report that is left open */
    train(record, 2);
    print_pulse_drive("before", record);
    send_wrong_list(record);
    send_recovery(record);
    print_pulse_drive("after", record);
    printf("trains: %d\n", RECOVERY_LENGTH);
}

int main(void)
{
    use_packet_drive();
    use_floppy_device();
    recover_pulse_drive();
    return 0;
}
