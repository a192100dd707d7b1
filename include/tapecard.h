/*
 * The drive card: packet tape drives (a stream and a floppy device) and a pulse tape drive, proved, over byte records that the
 * caller keeps.
 *
 * Link target/staticlib/libtapecard.a, which `make archive` makes (for x86-64). C99 and C++.
 *
 * A caller must give three things, which no proof can see:
 * 1. Pointers that are valid for as many bytes as their length says, and valid also where that is 0. The length of `counts` is in
 *    counts, and its pointer is aligned for uint16_t.
 * 2. Buffers that do not overlap: record, image, index, file, packet, data, answer, cartridge, counts and levels of one call are
 *    apart.
 * 3. Lengths that are true: who says 12 where 11 bytes came is protected by nothing; who says 11 is refused with 1.
 *
 * Beyond these:
 * - Every call takes every input: no bytes, lengths or numbers are forbidden. A short data, level or file buffer is refused with 4.
 * - A refused call (its answer's number is not 0) writes its answer and changes nothing else.
 * - Numbers of several bytes in records, images, packets and answers are big-endian, in tape files little-endian. Counts are the
 *   processor's own uint16_t.
 * - No call keeps a pointer after it returns.
 */
#ifndef TAPECARD_H
#define TAPECARD_H

#include <stddef.h>
#include <stdint.h>

#ifdef __cplusplus
extern "C" {
#endif

/* ---- Refusal numbers, byte 0 of every answer ---- */

#define TAPECARD_ACCEPTED 0             /* the call was made */
#define TAPECARD_REFUSED_PACKET 1       /* packet is not 12 bytes */
#define TAPECARD_REFUSED_IMAGE 2        /* image breaks a header rule; to the floppy device also: U is below C */
#define TAPECARD_REFUSED_RECORD 3       /* packet record has P > U, a speed outside the five, or a sense key above 15; the floppy
                                           device's also: BSEG*SEGTRK*TRKS above C, or P above it */
#define TAPECARD_REFUSED_BUFFER 4       /* data buffer is shorter than this transfer needs, level buffer shorter than the list, or
                                           file buffer shorter than the exported file */
#define TAPECARD_REFUSED_TRAIN 5        /* a train of 0 pulses, alone or anywhere in a list */
#define TAPECARD_REFUSED_CARTRIDGE 6    /* cartridge description outside its ranges */
#define TAPECARD_REFUSED_INSERTION 7    /* insertion with a cartridge in, or removal with none */
#define TAPECARD_REFUSED_PULSE_RECORD 8 /* pulse record breaks the record rules */
#define TAPECARD_REFUSED_INDEX_LENGTH 9 /* index buffer is shorter than four times the capacity */
#define TAPECARD_REFUSED_INDEX 10       /* index differs from a fresh one: make it afresh */
#define TAPECARD_REFUSED_LENGTHS 11     /* tape file: lengths of a record disagree or are cut */
#define TAPECARD_REFUSED_SIZE 12        /* tape file: a record is not of the image's block size */
#define TAPECARD_REFUSED_ELEMENTS 13    /* tape file: more elements than the cartridge's capacity */

/* ---- The cartridge image: a header, a table of kinds, the blocks ---- */

#define TAPECARD_IMAGE_HEADER_LENGTH 32 /* bytes of the header */
#define TAPECARD_IMAGE_LENGTH_AT 0      /* 2 bytes: the header's length, 32 */
#define TAPECARD_IMAGE_BLOCK_SIZE_AT 2  /* 2 bytes: block size B, 512 or 1024 */
#define TAPECARD_IMAGE_CAPACITY_AT 4    /* 4 bytes: capacity C, 1 to 65,535 elements */
#define TAPECARD_IMAGE_RECORDED_AT 8    /* 4 bytes: recorded U, at most C */
#define TAPECARD_IMAGE_KINDS_AT 12      /* 4 bytes: offset K of the kind table, K >= 32 */
#define TAPECARD_IMAGE_BLOCKS_AT 16     /* 4 bytes: offset D of the blocks, K + C <= D, D + C*B <= image length */
#define TAPECARD_IMAGE_PROTECT_AT 20    /* 1 byte: write protect, 0 or 1 */
#define TAPECARD_IMAGE_MEDIUM_AT 21     /* 1 byte: medium type, any */
#define TAPECARD_IMAGE_WARNING_AT 22    /* 2 bytes: early warning W, at most C; bytes 24-31 are zero */
#define TAPECARD_KIND_DATA 1            /* an element that is a block */
#define TAPECARD_KIND_FILEMARK 2        /* an element that is a filemark */
#define TAPECARD_KIND_MARKED 4          /* a block with a deleted address mark: read as data; every other kind is an unreadable block */

/* ---- The packet drive: the stream device ---- */

#define TAPECARD_PACKET_LENGTH 12        /* bytes of a packet */
#define TAPECARD_PACKET_RECORD_LENGTH 16 /* bytes of the stream device's record */
#define TAPECARD_PACKET_ANSWER_LENGTH 16 /* bytes of a packet's answer */

/* The record. */
#define TAPECARD_POSITION_AT 0       /* 4 bytes: position P */
#define TAPECARD_LOADED_AT 4         /* 1 byte: the bits LOADED and LOCKED below */
#define TAPECARD_ATTENTION_AT 5      /* 1 byte: the pending attention */
#define TAPECARD_SPEED_AT 6          /* 2 bytes: speed, 0 (automatic), 62, 125, 250 (fresh) or 500 */
#define TAPECARD_SENSE_KEY_AT 8      /* 1 byte: sense key, at most 15 */
#define TAPECARD_SENSE_ASC_AT 9      /* 1 byte: additional sense code */
#define TAPECARD_SENSE_ASCQ_AT 10    /* 1 byte: its qualifier */
#define TAPECARD_SENSE_FLAGS_AT 11   /* 1 byte: the three bits below */
#define TAPECARD_INFORMATION_AT 12   /* 4 bytes: information, the residue where it is valid */
#define TAPECARD_LOADED 0x01         /* a cartridge is loaded */
#define TAPECARD_LOCKED 0x02         /* the door is locked: an unload ends with 5/53/02 and P stays */
#define TAPECARD_ATTENTION_NONE 0    /* nothing to tell */
#define TAPECARD_ATTENTION_CHANGED 1 /* the medium was changed */
#define TAPECARD_ATTENTION_RESET 2   /* the drive was reset */
#define TAPECARD_SENSE_VALID 0x01    /* the information is valid */
#define TAPECARD_SENSE_EOM 0x02      /* end of medium, at either end; on the stream device also with 8/00/05 of READ and SPACE, where U > C - W */
#define TAPECARD_SENSE_FILEMARK 0x04 /* a filemark was met */

/* The answer. */
#define TAPECARD_ANSWER_NUMBER_AT 0     /* 1 byte: refusal number, 0 for none; in pulse answers too */
#define TAPECARD_ANSWER_STATUS_AT 1     /* 1 byte: status */
#define TAPECARD_ANSWER_BLOCKS_AT 4     /* 4 bytes: elements copied or stored, filemarks too */
#define TAPECARD_ANSWER_BYTES_AT 8      /* 4 bytes: bytes filled or taken in the data buffer */
#define TAPECARD_ANSWER_MARKED_AT 12    /* 4 bytes: of the blocks that a READ copied, how many were marked; 0 for all else */
#define TAPECARD_STATUS_GOOD 0          /* ended well */
#define TAPECARD_STATUS_CHECK_CONDITION 2 /* the record's sense tells more */

/* Opcodes, byte 0 of a packet. */
#define TAPECARD_TEST_UNIT_READY 0x00 /* GOOD where a cartridge is loaded */
#define TAPECARD_REWIND 0x01          /* P = 0 */
#define TAPECARD_REQUEST_SENSE 0x03   /* first min(byte 4, 20) bytes of the sense, which is then cleared */
#define TAPECARD_READ 0x08            /* byte 1 is 1, N blocks in bytes 2-4 */
#define TAPECARD_WRITE 0x0A           /* byte 1 is 1, N blocks in bytes 2-4 */
#define TAPECARD_WRITE_FILEMARK 0x10  /* N filemarks in bytes 2-4 */
#define TAPECARD_SPACE 0x11           /* byte 1: 0 blocks, 1 filemarks, 3 end of data; signed count in bytes 2-4 */
#define TAPECARD_INQUIRY 0x12         /* first min(byte 4, 36) bytes of who the drive is */
#define TAPECARD_MODE_SELECT 0x15     /* list of byte 4 bytes: one of 32 sets the speed, 0 and 12 set nothing */
#define TAPECARD_MODE_SENSE 0x1A      /* page in byte 2, 00h or 2Ah, first min(byte 4, 12 or 32) bytes */
#define TAPECARD_LOAD_UNLOAD 0x1B     /* byte 4: load 1, retension 2, EOT 4 */
#define TAPECARD_PREVENT_ALLOW 0x1E   /* medium removal: byte 4 bit 0 set locks the door, clear unlocks it */
#define TAPECARD_LOCATE 0x2B          /* P = bytes 3-6 */
#define TAPECARD_READ_POSITION 0x34   /* 20 bytes that tell P */

/* The list of 32 bytes that sets the speed; its other bytes are not looked at. MODE SENSE of page 2Ah gives one. */
#define TAPECARD_LIST_LENGTH 32   /* bytes of the list */
#define TAPECARD_LIST_PAGE_AT 12  /* 2 bytes: the page's code and length, as below */
#define TAPECARD_LIST_PAGE 0x2A12 /* page 2Ah, 18 bytes after these two */
#define TAPECARD_LIST_DOOR_AT 18  /* 1 byte that MODE SENSE gives: 08h and the two bits below */
#define TAPECARD_LIST_LOCK 0x01   /* the door can be locked: always set */
#define TAPECARD_LIST_LOCKED 0x02 /* the door is locked */
#define TAPECARD_LIST_SPEED_AT 26 /* 2 bytes: speed */

/* Makes a fresh record: position 0, loaded, not locked, attention reset, speed 250, no sense. */
void tapecard_fresh(uint8_t record[TAPECARD_PACKET_RECORD_LENGTH]);

/* Another cartridge is in: position 0, loaded, attention medium changed, no sense; the speed and the lock stay. */
void tapecard_change(uint8_t record[TAPECARD_PACKET_RECORD_LENGTH]);

/* Answers one packet over a cartridge image; a transfer fills or takes the first bytes of `data`. */
void tapecard_packet(uint8_t record[TAPECARD_PACKET_RECORD_LENGTH], uint8_t *image, size_t image_length,
                     const uint8_t *packet, size_t packet_length, uint8_t *data, size_t data_length,
                     uint8_t answer[TAPECARD_PACKET_ANSWER_LENGTH]);

/* ---- The packet drive: the stream device with a filemark index, a second lent buffer of 4*C bytes or more ---- */

#define TAPECARD_INDEX_ENTRY_LENGTH 4         /* bytes of an entry: the place of a filemark below U, ascending */
#define TAPECARD_INDEX_NO_FILEMARK 0xFFFFFFFF /* the entries behind the last filemark, up to 4*C bytes; bytes beyond stay */

/*
 * Makes the index of an image, which is only read. The answer: blocks are the filemarks found, bytes 4*C. Refused with 2 or 9, the
 * index stays as it was.
 */
void tapecard_index_make(const uint8_t *image, size_t image_length, uint8_t *index, size_t index_length,
                         uint8_t answer[TAPECARD_PACKET_ANSWER_LENGTH]);

/*
 * Answers one packet as tapecard_packet does and keeps the index that of the image; SPACE over filemarks goes by its entries alone.
 * Refused with 9 or 10, after 1, 2 and 3 and whichever packet it is, where the index is too short or not that of the image.
 */
void tapecard_index_packet(uint8_t record[TAPECARD_PACKET_RECORD_LENGTH], uint8_t *image, size_t image_length,
                           uint8_t *index, size_t index_length, const uint8_t *packet, size_t packet_length,
                           uint8_t *data, size_t data_length, uint8_t answer[TAPECARD_PACKET_ANSWER_LENGTH]);

/* ---- Tape files: an image written out by SIMH's magtape format, and a file read in ---- */

/* A file is words of four bytes, little-endian: one of the first two below, or the length of a record, which has it on both sides. */
#define TAPECARD_FILE_WORD_LENGTH 4         /* bytes of a word */
#define TAPECARD_FILE_TAPE_MARK 0x00000000  /* a filemark */
#define TAPECARD_FILE_END_MARK 0xFFFFFFFF   /* the file ends here: what follows is not looked at */
#define TAPECARD_FILE_UNREADABLE 0x80000000 /* added to a record's length where its bytes could not be read */

/* A file buffer that is always enough for so many elements, U of them; each filemark among them takes B + 4 bytes less. */
#define TAPECARD_FILE_MOST_BYTES(elements, block_size) \
    ((size_t)TAPECARD_FILE_WORD_LENGTH + (size_t)(elements) * ((size_t)(block_size) + 2 * TAPECARD_FILE_WORD_LENGTH))

/*
 * Writes the elements of an image, which is only read, into `file`; bytes beyond stay. The answer: blocks are U, bytes those of the
 * file, the end mark included. Refused with 2, then 4, the file buffer stays as it was.
 */
void tapecard_export(const uint8_t *image, size_t image_length, uint8_t *file, size_t file_length,
                     uint8_t answer[TAPECARD_PACKET_ANSWER_LENGTH]);

/*
 * Reads a file, which is only read, into an image, write-protected or not: its elements from place 0 on, and U. The record, which may
 * hold anything, is left as after tapecard_change; an index of the image must be made afresh. The answer: blocks are the elements
 * stored, bytes those of the file that were used. Refused with 2, then 11, 12 or 13, image and record stay as they were.
 */
void tapecard_import(uint8_t record[TAPECARD_PACKET_RECORD_LENGTH], uint8_t *image, size_t image_length,
                     const uint8_t *file, size_t file_length, uint8_t answer[TAPECARD_PACKET_ANSWER_LENGTH]);

/* ---- The packet drive: the floppy device, blocks by number over an image with U = C ---- */

#define TAPECARD_FLOPPY_RECORD_LENGTH 32 /* bytes of the floppy device's record; its answers are the packet drive's */

/* The record: bytes 0-15 as the stream device's, then the tape parameters. The tape has BSEG*SEGTRK*TRKS blocks, at most C. */
#define TAPECARD_FLOPPY_DENSITY_AT 16      /* 1 byte: density */
#define TAPECARD_FLOPPY_FILL_AT 17         /* 1 byte: format fill byte */
#define TAPECARD_FLOPPY_BSEG_AT 18         /* 1 byte: blocks of a segment */
#define TAPECARD_FLOPPY_FLAGS_AT 19        /* 1 byte: the three bits below */
#define TAPECARD_FLOPPY_SEGTRK_AT 20       /* 2 bytes: segments of a track */
#define TAPECARD_FLOPPY_TRKS_AT 22         /* 2 bytes: tracks of the tape */
#define TAPECARD_FLOPPY_MAX_SECTOR_AT 24   /* 1 byte: maximum floppy sector */
#define TAPECARD_FLOPPY_MAX_CYLINDER_AT 25 /* 1 byte: maximum floppy cylinder */
#define TAPECARD_FLOPPY_MAX_HEAD_AT 26     /* 1 byte: maximum floppy head; bytes 27-31 are zero */
#define TAPECARD_FLOPPY_WDAM 0x80          /* flag: write deleted address marks; as the next two, only kept and told: a WRITE marks none */
#define TAPECARD_FLOPPY_RM 0x40            /* flag: reduced margin */
#define TAPECARD_FLOPPY_FW 0x20            /* flag: format-write mode */

/*
 * Of the opcodes above this device knows all but REWIND, SPACE and READ POSITION. Different here:
 * READ, WRITE     N blocks in byte 4 alone; they end at the last block of the tape, and a WRITE leaves U
 * WRITE FILEMARK  a flush: nothing is stored
 * LOCATE          P = bytes 3-6, below the tape's blocks
 * LOAD/UNLOAD     byte 4: load 1, retension 2; a load sets the tape parameters back
 * MODE SENSE      page 2Bh too, 28 bytes with its header: the tape parameters
 * MODE SELECT     a list of 28 bytes too, which sets them
 */

/*
 * Makes a fresh record over this image: as the stream device's, BSEG 1, SEGTRK C, TRKS 1, the other tape parameters 0. The image
 * is only read. Refused with 2, the record stays as it was.
 */
void tapecard_floppy_fresh(uint8_t record[TAPECARD_FLOPPY_RECORD_LENGTH], const uint8_t *image, size_t image_length,
                           uint8_t answer[TAPECARD_PACKET_ANSWER_LENGTH]);

/*
 * This cartridge is in now: position 0, loaded, attention medium changed, no sense, tape parameters as in a fresh record; the speed
 * and the lock stay. The image is only read. Refused with 2, the record stays as it was.
 */
void tapecard_floppy_change(uint8_t record[TAPECARD_FLOPPY_RECORD_LENGTH], const uint8_t *image, size_t image_length,
                            uint8_t answer[TAPECARD_PACKET_ANSWER_LENGTH]);

/* Answers one packet over a cartridge image; a transfer fills or takes the first bytes of `data`. */
void tapecard_floppy_packet(uint8_t record[TAPECARD_FLOPPY_RECORD_LENGTH], uint8_t *image, size_t image_length,
                            const uint8_t *packet, size_t packet_length, uint8_t *data, size_t data_length,
                            uint8_t answer[TAPECARD_PACKET_ANSWER_LENGTH]);

/* ---- The pulse drive ---- */

#define TAPECARD_PULSE_RECORD_LENGTH 32 /* bytes of the pulse drive's record */
#define TAPECARD_PULSE_ANSWER_LENGTH 8  /* bytes of a pulse call's answer */
#define TAPECARD_CARTRIDGE_LENGTH 8     /* bytes of a cartridge description */

/* The record. */
#define TAPECARD_PULSE_FLAGS_AT 0          /* 1 byte: the five bits below */
#define TAPECARD_PULSE_MOTION_AT 1         /* 1 byte: how the tape moves */
#define TAPECARD_PULSE_SEGMENTS_AT 2       /* 2 bytes: segments G of the cartridge, 1-4095 */
#define TAPECARD_PULSE_TRACKS_AT 4         /* 1 byte: tracks of the cartridge, 1-64 */
#define TAPECARD_PULSE_CARTRIDGE_AT 5      /* 1 byte: the cartridge's flags */
#define TAPECARD_PULSE_FORMAT_AT 6         /* 1 byte: tape format, 0-4 */
#define TAPECARD_PULSE_TYPE_AT 7           /* 1 byte: tape type, 0-7 */
#define TAPECARD_PULSE_PLACE_AT 8          /* 2 bytes: place S, 0 to G */
#define TAPECARD_PULSE_TARGET_AT 10        /* 2 bytes: target, 0 to G; moving exactly when it is not S */
#define TAPECARD_PULSE_TRACK_AT 12         /* 1 byte: track */
#define TAPECARD_PULSE_RATE_AT 13          /* 1 byte: rate, 0-3 */
#define TAPECARD_PULSE_ERROR_AT 14         /* 1 byte: held error, 0 for none */
#define TAPECARD_PULSE_ERROR_COMMAND_AT 15 /* 1 byte: the error's command */
#define TAPECARD_PULSE_LEVEL_AT 16         /* 1 byte: bit 0, the level */
#define TAPECARD_PULSE_REPORT_LEFT_AT 17   /* 1 byte: report items left, 0 where no report is open */
#define TAPECARD_PULSE_REPORT_BITS_AT 18   /* 2 bytes: report bits not sent yet, the next one lowest */
#define TAPECARD_PULSE_WAITING_AT 20       /* 1 byte: code whose arguments are waited for, 0 for none */
#define TAPECARD_PULSE_HELD_AT 21          /* 1 byte: arguments held */
#define TAPECARD_PULSE_VALUE_AT 22         /* 2 bytes: value of the arguments held, the first nibble lowest */
#define TAPECARD_PULSE_VENDOR_AT 24        /* 2 bytes: vendor */
#define TAPECARD_PULSE_ROM_AT 26           /* 1 byte: ROM version; bytes 27-31 are zero */
#define TAPECARD_PULSE_CARTRIDGE_IN 0x01   /* flag: a cartridge is in */
#define TAPECARD_PULSE_REFERENCED 0x02     /* flag: the cartridge is referenced */
#define TAPECARD_PULSE_NEW_MARK 0x04       /* flag: the cartridge is new */
#define TAPECARD_PULSE_STATUS_ASKED 0x08   /* flag: status was asked while ready */
#define TAPECARD_PULSE_REPEAT_OWED 0x10    /* flag: the next 2 repeats the last level */
#define TAPECARD_PULSE_STILL 0             /* motion: none */
#define TAPECARD_PULSE_RUN 1               /* motion: to the target */
#define TAPECARD_PULSE_LOAD 2              /* motion: to place 0 as a load, which nothing stops */

/* The cartridge description. */
#define TAPECARD_CARTRIDGE_SEGMENTS_AT 0  /* 2 bytes: segments G, 1-4095 */
#define TAPECARD_CARTRIDGE_TRACKS_AT 2    /* 1 byte: tracks, 1-64 */
#define TAPECARD_CARTRIDGE_PLACE_AT 3     /* 2 bytes: place S, 0 to G */
#define TAPECARD_CARTRIDGE_FLAGS_AT 5     /* 1 byte: the three bits below */
#define TAPECARD_CARTRIDGE_FORMAT_AT 6    /* 1 byte: tape format, 0-4 */
#define TAPECARD_CARTRIDGE_TYPE_AT 7      /* 1 byte: tape type, 0-7 */
#define TAPECARD_CARTRIDGE_PROTECTED 0x01 /* flag: write protected */
#define TAPECARD_CARTRIDGE_BURST 0x02     /* flag: a reference burst is present */
#define TAPECARD_CARTRIDGE_WIDE 0x04      /* flag: wide tape */

/* The answer: number in byte 0 as above. */
#define TAPECARD_PULSE_ANSWER_LEVEL_AT 1 /* 1 byte: the level after the call */
#define TAPECARD_PULSE_ANSWER_TICKS_AT 4 /* 4 bytes: ticks used, 0 but for the wait call */

/* Makes the record of a drive just switched on: no cartridge, error 26. */
void tapecard_pulse_power_on(uint8_t record[TAPECARD_PULSE_RECORD_LENGTH], uint16_t vendor, uint8_t rom);

/* Sends one train of pulses. */
void tapecard_pulse_train(uint8_t record[TAPECARD_PULSE_RECORD_LENGTH], uint16_t pulses,
                          uint8_t answer[TAPECARD_PULSE_ANSWER_LENGTH]);

/*
 * Sends a list of trains, as if each were sent by tapecard_pulse_train, and writes the level after each, 0 or 1; bytes of `levels`
 * beyond the list stay. No time passes within a list, which may be empty. Refused with 8, then 5, then 4, nothing is sent.
 */
void tapecard_pulse_trains(uint8_t record[TAPECARD_PULSE_RECORD_LENGTH], const uint16_t *counts, size_t counts_length,
                           uint8_t *levels, size_t levels_length, uint8_t answer[TAPECARD_PULSE_ANSWER_LENGTH]);

/* Lets one tick pass: a moving tape goes one segment toward its target. */
void tapecard_pulse_tick(uint8_t record[TAPECARD_PULSE_RECORD_LENGTH], uint8_t answer[TAPECARD_PULSE_ANSWER_LENGTH]);

/* Puts a cartridge in, which starts a load. */
void tapecard_pulse_insert(uint8_t record[TAPECARD_PULSE_RECORD_LENGTH],
                           const uint8_t cartridge[TAPECARD_CARTRIDGE_LENGTH],
                           uint8_t answer[TAPECARD_PULSE_ANSWER_LENGTH]);

/* Takes the cartridge out. */
void tapecard_pulse_remove(uint8_t record[TAPECARD_PULSE_RECORD_LENGTH], uint8_t answer[TAPECARD_PULSE_ANSWER_LENGTH]);

/* Ticks until the drive is ready, at most `limit` times, and counts the ticks. */
void tapecard_pulse_wait(uint8_t record[TAPECARD_PULSE_RECORD_LENGTH], uint32_t limit,
                         uint8_t answer[TAPECARD_PULSE_ANSWER_LENGTH]);

#ifdef __cplusplus
}
#endif

#endif
