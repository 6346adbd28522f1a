/* The tape unit for firmware: four drives on one cable, in C99 or C++. docs/BOARD.md explains it.
 *
 * What a caller keeps, in every call; nothing else can go wrong, whatever the bytes are:
 * - Every pointer is real and not null, also where its length is 0, and its length is true.
 * - Record, four tapes, event or bytes, and result do not overlap.
 * - One call at a time on one record, and on one tape. */
#ifndef GLENOULTY_H
#define GLENOULTY_H

#include <stddef.h>
#include <stdint.h>

#ifdef __cplusplus
extern "C" {
#endif

/* The bytes of a record, and its first byte. */
#define GLENOULTY_SIZE 658
#define GLENOULTY_VERSION 2

/* The longest tape. */
#define GLENOULTY_LONGEST 16777216

/* Answers. From GLENOULTY_OUT_OF_STEP on the event was refused, and record and tapes are as they were. */
#define GLENOULTY_TAKEN 0       /* taken */
#define GLENOULTY_EXCEPTION 1   /* taken, and EXCEPTION was raised: READ STATUS tells why */
#define GLENOULTY_OUT_OF_STEP 2 /* not now: out of step with what the unit is doing */
#define GLENOULTY_WRONG_SLOT 3  /* no cartridge in that slot, or one too many */
#define GLENOULTY_NO_EVENT 4    /* bytes that are no event */
#define GLENOULTY_NO_RECORD 5   /* a buffer that holds no record, or one that cannot be */
#define GLENOULTY_TOO_LONG 6    /* a tape is longer than GLENOULTY_LONGEST */

/* Events: the first byte, and what the second is where there is one. */
#define GLENOULTY_COMMAND 0x01       /* a command octet by REQUEST: the octet */
#define GLENOULTY_GIVE 0x02          /* the host gives a data byte: the byte */
#define GLENOULTY_TAKE 0x03          /* the host takes a byte of data or status */
#define GLENOULTY_ONLINE 0x04        /* ONLINE is raised */
#define GLENOULTY_OFFLINE 0x05       /* ONLINE is dropped */
#define GLENOULTY_RESET 0x06         /* RESET */
#define GLENOULTY_CARTRIDGE_IN 0x07  /* drive 0 to 3, plus GLENOULTY_PROTECTED if its plug is set */
#define GLENOULTY_CARTRIDGE_OUT 0x08 /* drive 0 to 3 */
#define GLENOULTY_ERROR 0x09         /* a recoverable error: drive 0 to 3 */
#define GLENOULTY_UNDERRUN 0x0A      /* an underrun: drive 0 to 3 */
#define GLENOULTY_PROTECTED 0x80

/* Command octets. */
#define GLENOULTY_SELECT_0 0x01
#define GLENOULTY_SELECT_1 0x02
#define GLENOULTY_SELECT_2 0x04
#define GLENOULTY_SELECT_3 0x08
#define GLENOULTY_BOT 0x21
#define GLENOULTY_ERASE 0x22
#define GLENOULTY_INITIALIZATION 0x24
#define GLENOULTY_WRITE 0x40
#define GLENOULTY_WRITE_FILE_MARK 0x60
#define GLENOULTY_READ 0x80
#define GLENOULTY_READ_FILE_MARK 0xA0
#define GLENOULTY_READ_STATUS 0xC0

/* A report has six octets: these bits in octet 0, these in octet 1, then errors and underruns, high octet first. */
#define GLENOULTY_ST0 0x80 /* another bit of octet 0 stands */
#define GLENOULTY_CNI 0x40 /* no cartridge, now or at some time since the last report */
#define GLENOULTY_WRP 0x10 /* the cartridge is protected */
#define GLENOULTY_EOM 0x08 /* no room left to record, or a WRITE past early warning took its last block */
#define GLENOULTY_UDE 0x04 /* a bad record; nothing can be read there */
#define GLENOULTY_BNL 0x02 /* with GLENOULTY_UDE: its kind byte is none of 00, 01, 02 */
#define GLENOULTY_FIL 0x01 /* a file mark was passed */
#define GLENOULTY_ST1 0x80 /* another bit of octet 1 stands */
#define GLENOULTY_ILL 0x40 /* an illegal order */
#define GLENOULTY_NDT 0x20 /* the data ends here */
#define GLENOULTY_BOM 0x08 /* the cartridge stands at its beginning */
#define GLENOULTY_POR 0x01 /* power on or RESET since the last report */

/* What came of an event. `given` is 1 where the event handed out `byte`, else both are 0; the lines are 1 if up. */
typedef struct glenoulty_result {
    uint8_t answer;
    uint8_t given;
    uint8_t byte;
    uint8_t ready;
    uint8_t exception;
    uint8_t direction;
} glenoulty_result;

/* The lines of the cable, 1 if up. */
typedef struct glenoulty_lines_shown {
    uint8_t ready;
    uint8_t exception;
    uint8_t direction;
} glenoulty_lines_shown;

/* The library writes 6 and 3 bytes: a compiler that lays the types out otherwise stops here. */
typedef char glenoulty_result_has_6_bytes[sizeof(glenoulty_result) == 6 ? 1 : -1];
typedef char glenoulty_lines_shown_has_3_bytes[sizeof(glenoulty_lines_shown) == 3 ? 1 : -1];

/* The bytes of a record: GLENOULTY_SIZE, said by the library that was linked. */
size_t glenoulty_size(void);

/* Writes the record of a unit that was just switched on and returns 0; returns 5 and writes nothing where
 * record_length is not GLENOULTY_SIZE. */
uint8_t glenoulty_fresh(uint8_t *record, size_t record_length);

/* Answers one event: changes record and tapes as it demands, and writes what came of it to result. */
void glenoulty_step(uint8_t *record, size_t record_length,
                    uint8_t *tape0, size_t tape0_length,
                    uint8_t *tape1, size_t tape1_length,
                    uint8_t *tape2, size_t tape2_length,
                    uint8_t *tape3, size_t tape3_length,
                    const uint8_t *event, size_t event_length,
                    glenoulty_result *result);

/* Gives data bytes as one event GLENOULTY_GIVE for each would, up to and with the first that is not answered 0.
 * Returns how many went over; a refused one is not counted. The result is that of the last event. With length 0
 * there is none: answer 0, no byte, the lines as the record has them. Where the buffer holds no record it returns 0,
 * with answer 5 and all lines down. */
size_t glenoulty_give(uint8_t *record, size_t record_length,
                      uint8_t *tape0, size_t tape0_length,
                      uint8_t *tape1, size_t tape1_length,
                      uint8_t *tape2, size_t tape2_length,
                      uint8_t *tape3, size_t tape3_length,
                      const uint8_t *bytes, size_t bytes_length,
                      glenoulty_result *result);

/* Takes bytes of a block, or octets of a report, as one event GLENOULTY_TAKE for each would, up to and with the first
 * that is not answered 0. Returns how many came: they stand at the front of bytes, and what is behind them is as it
 * was. The result is as with glenoulty_give. */
size_t glenoulty_take(uint8_t *record, size_t record_length,
                      uint8_t *tape0, size_t tape0_length,
                      uint8_t *tape1, size_t tape1_length,
                      uint8_t *tape2, size_t tape2_length,
                      uint8_t *tape3, size_t tape3_length,
                      uint8_t *bytes, size_t bytes_length,
                      glenoulty_result *result);

/* Writes the lines of a record and returns 0; returns 5, with all lines down, where the buffer holds no record
 * or one that cannot be. */
uint8_t glenoulty_lines(const uint8_t *record, size_t record_length, glenoulty_lines_shown *lines);

#ifdef __cplusplus
}
#endif

#endif
