/* Reading a field, the view, and maps. */
#include "boards.h"
#include "check.h"
#include "suongkivat.h"

static SkvField field(int block, int start, int count)
{
    SkvField f = {(uint8_t)block, (uint16_t)start, (uint16_t)count};
    return f;
}

static void reading(void)
{
    uint32_t dump[WORDS] = {0};
    uint8_t bytes[5], before[5];
    put_bits(dump, 10, 20, 32, 0x89ABCDEF);
    IS(skv_read_field_u8(dump, WORDS, eights, BLOCKS, field(10, 20, 32)), 0, value, 0xEF);
    IS(skv_read_field_u16(dump, WORDS, eights, BLOCKS, field(10, 20, 32)), 0, value, 0xCDEF);
    IS(skv_read_field_u32(dump, WORDS, eights, BLOCKS, field(10, 20, 32)), 0, value, 0x89ABCDEF);
    IS(skv_read_field_u32(dump, WORDS, eights, BLOCKS, field(10, 20, 0)), 0, value, 0);
    IS(skv_read_field_u8(dump, 87, eights, BLOCKS, field(11, 300, 1)), SKV_DUMP, value, 0);
    IS(skv_read_field_u16(dump, WORDS, eights, BLOCKS, field(11, 300, 1)), SKV_BLOCK, value, 0);
    IS(skv_read_field_u32(dump, WORDS, eights, BLOCKS, field(10, 256, 0)), SKV_BIT_RANGE, value, 0);
    IS(skv_read_field_u32(dump, WORDS, eights, BLOCKS, field(10, 250, 7)), SKV_BIT_RANGE, value, 0);

    memset(bytes, 0xAA, 5);
    CHECK(plain(skv_read_field_le(dump, WORDS, eights, BLOCKS, field(10, 20, 32), bytes, 5).refusal, 0));
    CHECK(memcmp(bytes, "\xEF\xCD\xAB\x89\x00", 5) == 0);
    memcpy(before, bytes, 5);
    CHECK(plain(skv_read_field_le(dump, 89, eights, BLOCKS, field(10, 20, 32), bytes, 5).refusal, SKV_DUMP));
    CHECK(plain(skv_read_field_le(dump, WORDS, eights, BLOCKS, field(10, 20, 237), bytes, 5).refusal, SKV_BIT_RANGE));
    CHECK(memcmp(bytes, before, 5) == 0);
}

static void views(void)
{
    uint32_t dump[WORDS] = {0};
    SkvView good = skv_view(dump, WORDS, dump, WORDS, eights, BLOCKS, 0, 10);
    CHECK(plain(good.refusal, 0) && good.board == 0 && good.first == 80 && good.words == 8);
    good = skv_view(dump, 3, dump, WORDS, eights, BLOCKS, 1, 2); /* the field dump isn't looked at */
    CHECK(plain(good.refusal, 0) && good.board == 1 && good.first == 16 && good.words == 8);
    const SkvView bad[3] = {
        skv_view(dump, 3, dump, 3, eights, BLOCKS, 2, 11),
        skv_view(dump, WORDS, dump, 3, eights, BLOCKS, 1, 11),
        skv_view(dump, 3, dump, WORDS, eights, BLOCKS, 1, 11),
    };
    const uint8_t numbers[3] = {SKV_BOARD, SKV_DUMP, SKV_BLOCK};
    for (int i = 0; i < 3; i++)
        CHECK(plain(bad[i].refusal, numbers[i]) && bad[i].board == 0 && bad[i].first == 0 && bad[i].words == 0);
}

void fields(void)
{
    reading();
    views();
}

void maps(void)
{
    uint8_t map[C6_MAP];
    esp32_map(map);
    CHECK(plain(skv_check_map(SKV_ESP32, eights, BLOCKS, map, ESP32_MAP).refusal, 0));
    CHECK(plain(skv_check_map(SKV_ESP32, eights, BLOCKS, map, ESP32_MAP - 1).refusal, SKV_MAP));
    s2_map(map);
    CHECK(plain(skv_check_map(SKV_S2, eights, BLOCKS, map, S2_MAP).refusal, 0));
    CHECK(plain(skv_check_map(SKV_ESP32, eights, BLOCKS, map, S2_MAP).refusal, SKV_MAP));
    CHECK(plain(skv_check_map(SKV_C3, eights, BLOCKS, map, S2_MAP).refusal, SKV_MAP));
    CHECK(plain(skv_check_map(255, eights, BLOCKS, map, 0).refusal, SKV_MAP));
    c6_map(map);
    CHECK(plain(skv_check_map(SKV_C6, eights, BLOCKS, map, C6_MAP).refusal, 0));
    CHECK(plain(skv_check_map(SKV_C6, eights, BLOCKS, map, C6_MAP - 8).refusal, SKV_MAP));
}
