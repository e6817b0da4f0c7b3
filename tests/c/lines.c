/* ESP32 line calibration, and logs. */
#include "boards.h"
#include "check.h"
#include "suongkivat.h"

static const SkvCount counts[5] = {{0}, {2880}, {2912}, {2944}, {4095}};
static const uint16_t marked[5] = {142, 2462, 2483, 2502, 3134};

static SkvDecoded with_vref(uint32_t code)
{
    uint32_t dump[WORDS] = {0};
    uint8_t map[ESP32_MAP];
    esp32_map(map);
    put_bits(dump, 3, VREF, 5, code);
    return skv_decode(dump, WORDS, eights, BLOCKS, map, ESP32_MAP, 0, 3);
}

static SkvDecoded with_codes(uint32_t low, uint32_t high, uint8_t attenuation)
{
    uint32_t dump[WORDS] = {0};
    uint8_t map[ESP32_MAP];
    esp32_map(map);
    put_bits(dump, 3, RESERVE, 1, 1);
    put_bits(dump, 3, LOW, 7, low);
    put_bits(dump, 3, LOW2, 7, 1);
    put_bits(dump, 3, HIGH, 9, high);
    put_bits(dump, 3, HIGH2, 9, 1);
    return skv_decode(dump, WORDS, eights, BLOCKS, map, ESP32_MAP, 0, attenuation);
}

static int no_record(SkvDecoded d, uint8_t number)
{
    return plain(d.refusal, number) && is_zero(d.record);
}

static void decoding(void)
{
    uint32_t dump[WORDS] = {0};
    uint8_t map[ESP32_MAP];
    SkvLineRecord r;
    CHECK(with_vref(0x00).record.vref == 1100);
    CHECK(with_vref(0x10).record.vref == 1100);
    CHECK(with_vref(0x0F).record.vref == 1205);
    CHECK(with_vref(0x1F).record.vref == 995);
    r = with_vref(0).record;
    CHECK(r.coeff_a == 52798 && r.coeff_b == 142 && r.unit == 0);
    r = with_codes(1, 1, 3).record;
    CHECK(r.coeff_a == 52567 && r.coeff_b == 138);
    for (uint8_t attenuation = 0; attenuation < 4; attenuation++)
        CHECK(plain(with_codes(63, 0x1BD, attenuation).refusal, 0));
    CHECK(with_codes(63, 0x1BD, 0).record.coeff_b == 0);
    CHECK(no_record(with_codes(63, 0x1BC, 0), SKV_UNDERFLOW));
    CHECK(plain(with_codes(63, 0x1BC, 3).refusal, 0) && with_codes(63, 0x1BC, 3).record.coeff_b == 53);
    CHECK(no_record(with_codes(63, 0x101, 3), SKV_UNDERFLOW));
    esp32_map(map);
    CHECK(no_record(skv_decode(dump, 0, eights, BLOCKS, map, 0, 2, 4), SKV_DUMP));
    CHECK(no_record(skv_decode(dump, WORDS, eights, BLOCKS, map, 0, 2, 3), SKV_UNIT));
    CHECK(no_record(skv_decode(dump, WORDS, eights, BLOCKS, map, 0, 1, 3), SKV_MAP));
}

static void converting(void)
{
    SkvLineRecord r = with_vref(0).record;
    const SkvCount above = {4096};
    for (int i = 0; i < 5; i++)
        IS(skv_convert(r, counts[i]), 0, voltage.mv, marked[i]);
    IS(skv_convert(r, above), SKV_RAW, voltage.mv, 0);
    CHECK(plain(skv_check_record(r).refusal, 0));
    r.coeff_a = 131072;
    CHECK(plain(skv_check_record(r).refusal, SKV_LINE_RECORD));
    IS(skv_convert(r, above), SKV_LINE_RECORD, voltage.mv, 0);
}

static void filling(void)
{
    static uint16_t table[SKV_COUNTS], before[SKV_COUNTS];
    SkvLineRecord r = with_vref(0).record;
    const SkvCount none = {0}, late = {2000}, end = {4096}, past = {4097};
    CHECK(plain(skv_fill(r, none, table, 2000).refusal, 0));
    CHECK(plain(skv_fill(r, late, table + 2000, 2096).refusal, 0));
    for (int i = 0; i < 5; i++)
        CHECK(table[counts[i].raw] == marked[i]);
    for (int raw = 0; raw < SKV_COUNTS; raw++) {
        const SkvCount count = {(uint16_t)raw};
        CHECK(table[raw] == skv_convert(r, count).voltage.mv);
    }
    CHECK(plain(skv_fill(r, none, table, SKV_COUNTS).refusal, 0));
    memcpy(before, table, sizeof table);
    CHECK(plain(skv_fill(r, late, table, 2097).refusal, SKV_STRETCH));
    CHECK(plain(skv_fill(r, end, table, 0).refusal, 0));
    CHECK(plain(skv_fill(r, past, table, 0).refusal, SKV_STRETCH));
    r.vref = 994;
    CHECK(plain(skv_fill(r, past, table, 1).refusal, SKV_LINE_RECORD));
    CHECK(memcmp(table, before, sizeof table) == 0);
}

void lines(void)
{
    decoding();
    converting();
    filling();
}

static int nothing(SkvNext n, uint8_t number)
{
    return plain(n.refusal, number) && n.whole == 0 && n.sample.raw.raw == 0 && n.sample.board == 0 && n.sample.last == 0;
}

/* Document 01's log of three samples, and one bad in each way. */
void logs(void)
{
    const uint8_t log[12] = {0x00, 0x00, 0x00, 0x03, 0x40, 0x0B, 0x01, 0x03, 0x00, 0x10, 0x00, 0x03};
    const uint8_t numbers[3] = {0, 0, SKV_RAW};
    const uint16_t answers[3] = {142, 2462, 0};
    const SkvSample board = {{4096}, 2, 3}, last = {{4096}, 1, 8}, unmapped = {{4096}, 1, 7};
    uint32_t dump[WORDS] = {0};
    uint8_t map[ESP32_MAP];
    esp32_map(map);
    for (int i = 0; i < 3; i++) {
        const SkvNext next = skv_next_sample(log + SKV_SAMPLE_BYTES * i, (size_t)(12 - SKV_SAMPLE_BYTES * i));
        CHECK(plain(next.refusal, 0) && next.whole == 1 && next.sample.board == log[4 * i + 2] && next.sample.last == 3);
        IS(skv_sample(next.sample, dump, WORDS, dump, WORDS, eights, BLOCKS, map, ESP32_MAP), numbers[i], voltage.mv, answers[i]);
    }
    CHECK(nothing(skv_next_sample(log, 0), 0));
    CHECK(nothing(skv_next_sample(log, SKV_SAMPLE_BYTES - 1), SKV_LOG));
    IS(skv_sample(board, dump, 0, dump, 0, eights, BLOCKS, map, 0), SKV_BOARD, voltage.mv, 0);
    IS(skv_sample(last, dump, 0, dump, 0, eights, BLOCKS, map, 0), SKV_BOARD, voltage.mv, 0);
    IS(skv_sample(unmapped, dump, WORDS, dump, 0, eights, BLOCKS, map, 0), SKV_DUMP, voltage.mv, 0);
    IS(skv_sample(unmapped, dump, 0, dump, WORDS, eights, BLOCKS, map, 0), SKV_MAP, voltage.mv, 0);
}
