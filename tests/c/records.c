/* Which record of a map is bad, and which of its last bytes: by every call that takes a map. */
#include "boards.h"
#include "check.h"
#include "suongkivat.h"

/* A wrong byte of a record: its place there, what is put, and the number and the place that are told. They stand in the order in which
   they are told: of two in one record it is the first. */
typedef struct Wrong {
    int at;
    uint8_t byte;
    uint8_t number;
    uint8_t place;
} Wrong;

static const Wrong wrong[] = {
    {0, 0, SKV_MAP_ID, 0},
    {5, 1, SKV_MAP_BYTE, 5},
    {6, 0x80, SKV_MAP_BYTE, 6},
    {7, 0xFF, SKV_MAP_BYTE, 7},
    {1, 11, SKV_BLOCK, 0},
    {3, 1, SKV_BIT_RANGE, 0}, /* a start of 256 or more */
    {4, 0, SKV_BIT_COUNT, 0},
};
enum { WRONGS = sizeof wrong / sizeof wrong[0] };

static int same(SkvRefusal a, SkvRefusal b) { return tells(a, b.number, b.record, b.place); }

/* An answer with that refusal and a zero beside it. */
#define REFUSED(a, told, member) (CHECK(same((a).refusal, (told))), CHECK((a).member == 0))

static const uint32_t dump[WORDS];

static void by_esp32(const uint8_t *map, SkvRefusal told)
{
    const SkvSample field = {{0}, 0, 0}, reference = {{4096}, 1, 7}; /* 8 comes after the map's */
    const SkvDecoded decoded[2] = {
        skv_decode(dump, WORDS, eights, BLOCKS, map, ESP32_MAP, 0, 3),
        skv_decode(dump, WORDS, eights, BLOCKS, map, ESP32_MAP, 1, 0),
    };
    CHECK(same(skv_check_map(SKV_ESP32, eights, BLOCKS, map, ESP32_MAP).refusal, told));
    for (int i = 0; i < 2; i++)
        CHECK(same(decoded[i].refusal, told) && is_zero(decoded[i].record));
    REFUSED(skv_sample(field, dump, WORDS, dump, 0, eights, BLOCKS, map, ESP32_MAP), told, voltage.mv);
    REFUSED(skv_sample(reference, dump, 0, dump, WORDS, eights, BLOCKS, map, ESP32_MAP), told, voltage.mv);
}

static void by_s2(const uint8_t *map, SkvRefusal told)
{
    CHECK(same(skv_check_map(SKV_S2, eights, BLOCKS, map, S2_MAP).refusal, told));
    REFUSED(skv_s2_version(dump, WORDS, eights, BLOCKS, map, S2_MAP), told, version);
    REFUSED(skv_s2_flash_encryption(dump, WORDS, eights, BLOCKS, map, S2_MAP), told, on);
    REFUSED(skv_s2_init_code(dump, WORDS, eights, BLOCKS, map, S2_MAP, 0, 3), told, code);
    REFUSED(skv_s2_cal_code(dump, WORDS, eights, BLOCKS, map, S2_MAP, 1, 0), told, code);
}

static void by_c6(const uint8_t *map, SkvRefusal told)
{
    CHECK(same(skv_check_map(SKV_C6, eights, BLOCKS, map, C6_MAP).refusal, told));
    REFUSED(skv_c6_init_code(dump, WORDS, eights, BLOCKS, map, C6_MAP, 0, 0, 3), told, code); /* 12 comes after the map's */
    REFUSED(skv_c6_cal_code(dump, WORDS, eights, BLOCKS, map, C6_MAP, 2, 1, 0), told, code);
    REFUSED(skv_c6_get_chan_compens(dump, WORDS, eights, BLOCKS, map, C6_MAP, 0, 6, 3), told, value);
}

typedef struct Chip {
    int records;
    void (*good)(uint8_t *map);
    void (*asked)(const uint8_t *map, SkvRefusal told);
} Chip;

static const Chip chips[] = {{6, esp32_map, by_esp32}, {2, s2_map, by_s2}, {15, c6_map, by_c6}};

/* A map with two wrong bytes, perhaps the same one twice, of which the first is told. */
static void spoiled(const Chip *chip, int record, const Wrong *first, int later, const Wrong *second)
{
    const SkvRefusal told = {first->number, (uint8_t)record, first->place};
    uint8_t map[C6_MAP];
    chip->good(map);
    map[8 * record + first->at] = first->byte;
    map[8 * later + second->at] = second->byte;
    chip->asked(map, told);
}

static void spoiled_from(const Chip *chip, int record)
{
    for (int i = 0; i < WRONGS; i++) {
        for (int j = i; j < WRONGS; j++)
            spoiled(chip, record, &wrong[i], record, &wrong[j]);
        for (int later = record + 1; later < chip->records; later++)
            for (int j = 0; j < WRONGS; j++)
                spoiled(chip, record, &wrong[i], later, &wrong[j]);
    }
}

/* What comes before the records tells none, however bad they are. */
static void before_the_records(void)
{
    const SkvSample none = {{0}, 2, 0}, good = {{0}, 0, 0};
    uint8_t map[C6_MAP];
    memset(map, 0xFF, sizeof map);
    CHECK(plain(skv_check_map(SKV_ESP32, eights, BLOCKS, map, ESP32_MAP + 1).refusal, SKV_MAP));
    CHECK(plain(skv_check_map(SKV_C3, eights, BLOCKS, map, C6_MAP).refusal, SKV_MAP));
    CHECK(plain(skv_decode(dump, 87, eights, BLOCKS, map, ESP32_MAP, 0, 3).refusal, SKV_DUMP));
    CHECK(plain(skv_decode(dump, WORDS, eights, BLOCKS, map, ESP32_MAP, 2, 3).refusal, SKV_UNIT));
    IS(skv_sample(none, dump, WORDS, dump, WORDS, eights, BLOCKS, map, ESP32_MAP), SKV_BOARD, voltage.mv, 0);
    IS(skv_sample(good, dump, 0, dump, WORDS, eights, BLOCKS, map, ESP32_MAP), SKV_DUMP, voltage.mv, 0);
    IS(skv_s2_version(dump, 0, eights, BLOCKS, map, S2_MAP), SKV_DUMP, version, 0);
    IS(skv_s2_flash_encryption(dump, 0, eights, BLOCKS, map, S2_MAP), SKV_DUMP, on, 0);
    IS(skv_s2_init_code(dump, WORDS, eights, BLOCKS, map, S2_MAP, 2, 0), SKV_UNIT, code, 0);
    IS(skv_s2_cal_code(dump, WORDS, eights, BLOCKS, map, S2_MAP - 1, 0, 0), SKV_MAP, code, 0);
    IS(skv_c6_init_code(dump, 0, eights, BLOCKS, map, C6_MAP, 1, 0, 0), SKV_DUMP, code, 0);
    IS(skv_c6_cal_code(dump, WORDS, eights, BLOCKS, map, C6_MAP, 1, 0, 4), SKV_UNIT, code, 0);
    IS(skv_c6_get_chan_compens(dump, WORDS, eights, BLOCKS, map, C6_MAP - 8, 0, 6, 3), SKV_MAP, value, 0);
}

void records(void)
{
    for (size_t i = 0; i < sizeof chips / sizeof chips[0]; i++)
        for (int record = 0; record < chips[i].records; record++)
            spoiled_from(&chips[i], record);
    before_the_records();
}
