/* Suongkivat for C: raw ADC counts of ESP32 boards and their kin into millivolts.

   Answers. Each call answers any input, and either gives its values or is turned down with a number of the table below; a refusal has
   zeros for values, and leaves lent memory as it was. Number 0 is no refusal. A refusal of a map also tells which of its records is bad.
   The calls are proved to give exactly the answers of the definitions in crates/, for whatever is handed in.

   Memory. A length counts elements: words of a dump, bytes of a map, a log or a list of block lengths, numbers of a table. What the
   proof takes for granted of a caller is that each pointer has the length beside it in readable memory (writable for bytes and
   millivolts), and that no lent memory that a call writes overlaps any other that it is handed. Empty memory is a length of 0 beside a
   pointer to anything: no element is read, but the pointer must not be null. So no call takes NULL, 0. Nothing is kept after a call,
   and no call allocates.

   Threads. The library has no state: any number of threads may call at once, as long as none writes what another has lent.

   Units are 0 and 1; attenuations 0, 1, 2, 3 are 0, 2.5, 6 and 11 dB. */
#ifndef SUONGKIVAT_H
#define SUONGKIVAT_H

#include <stddef.h>
#include <stdint.h>

#ifdef __cplusplus
extern "C" {
#endif

/* The version of this header and its library. The first number changes where a caller has to be changed or compiled anew, the second
   where something was added. */
#define SKV_VERSION_MAJOR 4
#define SKV_VERSION_MINOR 0
#define SKV_VERSION "4.0"

/* Lengths, in elements. */
enum {
    SKV_DUMP_WORDS = 88,      /* blocks 0 to 10, room for eight words each */
    SKV_BLOCKS = 11,          /* a list of block lengths: a byte a block, how many words of it there are, 0 to 8 */
    SKV_ESP32_MAP_BYTES = 48, /* a map is records of 8 bytes, one a field of its chip */
    SKV_S2_MAP_BYTES = 16,
    SKV_C6_MAP_BYTES = 120,
    SKV_SAMPLE_BYTES = 4, /* a record of a log */
    SKV_COUNTS = 4096     /* counts are 0 to 4095: a table of all their millivolts */
};

/* The list of a chip whose blocks all have eight words: const uint8_t lengths[SKV_BLOCKS] = SKV_EIGHTS; */
#define SKV_EIGHTS {8, 8, 8, 8, 8, 8, 8, 8, 8, 8, 8}

/* Why a call was turned down. A call that takes a map gives 2, then for each record from first to last 3, 18, 4, 5, 6: "the map's"
   below. */
enum {
    SKV_NONE = 0,         /* it wasn't */
    SKV_DUMP = 1,         /* the dump hasn't 88 words */
    SKV_MAP = 2,          /* the map's length isn't its chip's */
    SKV_MAP_ID = 3,       /* a map record's id isn't that of its place */
    SKV_BLOCK = 4,        /* block above 10 */
    SKV_BIT_RANGE = 5,    /* bit start above 255, or start + count past the block's own length, 32 bits a word */
    SKV_BIT_COUNT = 6,    /* a map record's bit count isn't its id's */
    SKV_UNIT = 7,         /* unit above 1 or attenuation above 3 */
    SKV_RAW = 8,          /* count above 4095 */
    SKV_UNDERFLOW = 9,    /* by the two points the line would begin below 0 mV */
    SKV_LINE_RECORD = 10, /* line record outside its ranges, or by Vref with another a or b than its Vref's */
    SKV_STRETCH = 11,     /* a stretch whose first count plus length is above 4096 */
    SKV_NO_CODE = 12,     /* no code in that version: S2 version not 2, or C6 version not 1 or 2 */
    SKV_LINE_ANSWER = 13, /* line answer above 4095 given to the curve */
    SKV_CURVE = 14,       /* no curve for that chip and unit */
    SKV_BOARD = 15,       /* board above 1, or a sample's last byte above 7 */
    SKV_LOG = 16,         /* log ends inside a record */
    SKV_MAP_BYTE = 18,    /* a byte among a map record's last three isn't zero */
    SKV_LENGTHS = 20      /* the list of block lengths isn't eleven, or one of them is above 8 */
};

/* The chips. Maps are those of ESP32, S2 and C6. */
enum {
    SKV_ESP32 = 0,
    SKV_S2 = 1,
    SKV_C3 = 2,
    SKV_C5 = 3,
    SKV_C6 = 4,
    SKV_C61 = 5,
    SKV_H2 = 6,
    SKV_P4 = 7,
    SKV_S3 = 8
};

/* A refusal's number, or SKV_NONE. Where a call gives 3, 18, 4, 5 or 6 for a record of its map, record is the number of the map's first
   bad record, from 0; at 18 place is that of its first byte that should be zero and isn't: 5, 6 or 7. Else both are 0. */
typedef struct SkvRefusal {
    uint8_t number;
    uint8_t record;
    uint8_t place;
} SkvRefusal;

/* A raw reading of the converter, and a voltage: two types, so that neither is taken for the other. */
typedef struct SkvCount {
    uint16_t raw;
} SkvCount;

typedef struct SkvMillivolt {
    uint16_t mv;
} SkvMillivolt;

typedef struct SkvOutcome {
    SkvRefusal refusal;
} SkvOutcome;

typedef struct SkvVoltage {
    SkvRefusal refusal;
    SkvMillivolt voltage;
} SkvVoltage;

typedef struct SkvCode {
    SkvRefusal refusal;
    uint16_t code;
} SkvCode;

typedef struct SkvReading {
    SkvRefusal refusal;
    int32_t value;
} SkvReading;

/* The bits bit_start to bit_start + bit_count - 1 of a block. */
typedef struct SkvField {
    uint8_t block;
    uint16_t bit_start;
    uint16_t bit_count;
} SkvField;

typedef struct SkvRead {
    SkvRefusal refusal;
    uint32_t value;
} SkvRead;

/* A part of a board's dump, 0 for field and 1 for reference: its first word, and how many there are. */
typedef struct SkvView {
    SkvRefusal refusal;
    uint8_t board;
    uint32_t first;
    uint32_t words;
} SkvView;

/* Where a record's a and b come from. */
enum {
    SKV_TWO_POINT = 0,
    SKV_VREF = 1
};

/* What converting goes by: a up to 131071, b up to 4095, vref 995 to 1205, unit 0 or 1, attenuation 0 to 3, and the source. By Vref a and
   b are exactly those that vref gives for the unit and the attenuation. The lookup is used at attenuation 3. 16 bytes, of which the last
   is not looked at. Bytes that version 2 stored are no such record, and needn't be refused: decode the board again. */
typedef struct SkvLineRecord {
    uint32_t coeff_a;
    uint32_t coeff_b;
    uint32_t vref;
    uint8_t unit;
    uint8_t attenuation;
    uint8_t source;
} SkvLineRecord;

typedef struct SkvDecoded {
    SkvRefusal refusal;
    SkvLineRecord record;
} SkvDecoded;

typedef struct SkvVersion {
    SkvRefusal refusal;
    uint8_t version;
} SkvVersion;

/* on is 1 for yes, 0 for no. */
typedef struct SkvFlashEncryption {
    SkvRefusal refusal;
    uint8_t on;
} SkvFlashEncryption;

/* A record of a log; last is unit x 4 + attenuation. */
typedef struct SkvSample {
    SkvCount raw;
    uint8_t board;
    uint8_t last;
} SkvSample;

/* What a log begins with: a sample where whole is 1; its end where whole is 0 and nothing is refused. */
typedef struct SkvNext {
    SkvRefusal refusal;
    uint8_t whole;
    SkvSample sample;
} SkvNext;

/* Calls. Each has its refusals in the order in which they are given. */

/* Fields. */

/* A field's value at 8, 16 or 32 bits: its low bits.
   Refusals 1 (dump), 20 (lengths), 4 (block), 5 (bit range). */
SkvRead skv_read_field_u8(const uint32_t *dump, size_t dump_len, const uint8_t *lengths, size_t lengths_len, SkvField field);
SkvRead skv_read_field_u16(const uint32_t *dump, size_t dump_len, const uint8_t *lengths, size_t lengths_len, SkvField field);
SkvRead skv_read_field_u32(const uint32_t *dump, size_t dump_len, const uint8_t *lengths, size_t lengths_len, SkvField field);

/* Reads a field into the lent bytes, low first; all of them are written.
   Refusals 1 (dump), 20 (lengths), 4 (block), 5 (bit range). */
SkvOutcome skv_read_field_le(const uint32_t *dump, size_t dump_len, const uint8_t *lengths, size_t lengths_len, SkvField field,
                             uint8_t *bytes, size_t bytes_len);

/* Where a block's own words stand in the chosen board's dump, which alone is checked; perhaps none, at the block's start.
   Refusals 15 (board), 1 (dump), 20 (lengths), 4 (block). */
SkvView skv_view(const uint32_t *field_dump, size_t field_dump_len, const uint32_t *reference_dump, size_t reference_dump_len,
                 const uint8_t *lengths, size_t lengths_len, uint8_t board, uint8_t block);

/* Maps. */

/* Whether a map is its chip's. No map is that of a chip other than ESP32, S2 and C6: 2.
   Refusals 20 (lengths), the map's. */
SkvOutcome skv_check_map(uint8_t chip, const uint8_t *lengths, size_t lengths_len, const uint8_t *map, size_t map_len);

/* ESP32 line calibration. */

/* The line record of a unit at an attenuation.
   Refusals 1 (dump), 20 (lengths), 7 (unit or attenuation), the map's, 9 (underflow, at this attenuation). */
SkvDecoded skv_decode(const uint32_t *dump, size_t dump_len, const uint8_t *lengths, size_t lengths_len, const uint8_t *map,
                      size_t map_len, uint8_t unit, uint8_t attenuation);

/* Whether a record is one to convert by: inside its ranges, and by Vref with its Vref's a and b.
   Refusal 10 (line record). */
SkvOutcome skv_check_record(SkvLineRecord record);

/* The millivolts of a count, at most 12,285.
   Refusals 10 (line record), 8 (count). */
SkvVoltage skv_convert(SkvLineRecord record, SkvCount count);

/* Writes the millivolts of the counts from a first one on into the lent list, all of it.
   Refusals 10 (line record), 11 (stretch). */
SkvOutcome skv_fill(SkvLineRecord record, SkvCount first_count, uint16_t *millivolts, size_t millivolts_len);

/* The S2. */

/* The calibration's version.
   Refusals 1 (dump), 20 (lengths), the map's. */
SkvVersion skv_s2_version(const uint32_t *dump, size_t dump_len, const uint8_t *lengths, size_t lengths_len, const uint8_t *map,
                          size_t map_len);

/* A parameter's reading by a version, 0 where the two don't pair: low voltage, high voltage, initial code.
   Refusals 1 (dump), 20 (lengths), 7 (unit or attenuation), 5 (a field that it reads lies past block 2's own length). */
SkvReading skv_s2_reading_vlow(const uint32_t *dump, size_t dump_len, const uint8_t *lengths, size_t lengths_len, uint8_t version,
                               uint8_t unit, uint8_t attenuation);
SkvReading skv_s2_reading_vhigh(const uint32_t *dump, size_t dump_len, const uint8_t *lengths, size_t lengths_len, uint8_t version,
                                uint8_t unit, uint8_t attenuation);
SkvReading skv_s2_reading_vinit(const uint32_t *dump, size_t dump_len, const uint8_t *lengths, size_t lengths_len, uint8_t version,
                                uint8_t unit, uint8_t attenuation);

/* The same with the eFuse skipped.
   Refusal 7 (unit or attenuation). */
SkvReading skv_s2_skipped_vlow(uint8_t version, uint8_t unit, uint8_t attenuation);
SkvReading skv_s2_skipped_vhigh(uint8_t version, uint8_t unit, uint8_t attenuation);
SkvReading skv_s2_skipped_vinit(uint8_t version, uint8_t unit, uint8_t attenuation);

/* The initial code, and the code at the reference voltage.
   Refusals 1 (dump), 20 (lengths), 7 (unit or attenuation), the map's, 12 (no code), 5 (as a reading's: no record is told, so that where
   record is 0 skv_check_map says whether it is the map's). */
SkvCode skv_s2_init_code(const uint32_t *dump, size_t dump_len, const uint8_t *lengths, size_t lengths_len, const uint8_t *map,
                         size_t map_len, uint8_t unit, uint8_t attenuation);
SkvCode skv_s2_cal_code(const uint32_t *dump, size_t dump_len, const uint8_t *lengths, size_t lengths_len, const uint8_t *map,
                        size_t map_len, uint8_t unit, uint8_t attenuation);

/* The reference voltage of an attenuation.
   Refusal 7 (unit or attenuation). */
SkvVoltage skv_s2_cal_mv(uint8_t unit, uint8_t attenuation);

/* Whether flash encryption is on.
   Refusals 1 (dump), 20 (lengths), the map's. */
SkvFlashEncryption skv_s2_flash_encryption(const uint32_t *dump, size_t dump_len, const uint8_t *lengths, size_t lengths_len,
                                           const uint8_t *map, size_t map_len);

/* The C6. */

/* The calibration's version: 1 or 2, or 0 where there is none. No refusal. */
uint8_t skv_c6_version(uint8_t minor_block_version);

/* The initial code, and the code at the reference voltage.
   Refusals 1 (dump), 20 (lengths), 7 (unit or attenuation), the map's, 12 (no code). */
SkvCode skv_c6_init_code(const uint32_t *dump, size_t dump_len, const uint8_t *lengths, size_t lengths_len, const uint8_t *map,
                         size_t map_len, uint8_t minor_block_version, uint8_t unit, uint8_t attenuation);
SkvCode skv_c6_cal_code(const uint32_t *dump, size_t dump_len, const uint8_t *lengths, size_t lengths_len, const uint8_t *map,
                        size_t map_len, uint8_t minor_block_version, uint8_t unit, uint8_t attenuation);

/* A channel's compensation; channels 6 and up use channel 6.
   Refusals 1 (dump), 20 (lengths), 7 (unit or attenuation), the map's. */
SkvReading skv_c6_get_chan_compens(const uint32_t *dump, size_t dump_len, const uint8_t *lengths, size_t lengths_len,
                                   const uint8_t *map, size_t map_len, uint8_t unit, uint8_t channel, uint8_t attenuation);

/* The reference voltage of an attenuation.
   Refusal 7 (unit or attenuation). */
SkvVoltage skv_c6_cal_mv(uint8_t minor_block_version, uint8_t unit, uint8_t attenuation);

/* Curves. */

/* Corrects a line answer by the curve of its chip, unit and attenuation; the minor block version is looked at for a C6 alone.
   Refusals 7 (unit or attenuation), 14 (curve; so too for a number that names no chip), 13 (line answer). */
SkvVoltage skv_correct(uint8_t chip, uint8_t minor_block_version, uint8_t unit, uint8_t attenuation, SkvMillivolt line_answer);

/* Logs. */

/* The log's first sample, 4 bytes long, or its end.
   Refusal 16 (log). */
SkvNext skv_next_sample(const uint8_t *log, size_t log_len);

/* A sample's millivolts, by the ESP32 map and the dump of its board.
   Refusals 15 (board), those of skv_decode, 8 (count). */
SkvVoltage skv_sample(SkvSample sample, const uint32_t *field_dump, size_t field_dump_len, const uint32_t *reference_dump,
                      size_t reference_dump_len, const uint8_t *lengths, size_t lengths_len, const uint8_t *map, size_t map_len);

#ifdef __cplusplus
}
#endif

#endif
