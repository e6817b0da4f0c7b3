/* The S2, the C6, and curves. */
#include "boards.h"
#include "check.h"
#include "suongkivat.h"

static void s2_readings(void)
{
    uint32_t dump[WORDS] = {0};
    IS(skv_s2_reading_vhigh(dump, WORDS, eights, BLOCKS, 2, 0, 0), 0, value, 6110);
    IS(skv_s2_reading_vinit(dump, WORDS, eights, BLOCKS, 2, 0, 3), 0, value, 1685);
    IS(skv_s2_reading_vinit(dump, WORDS, eights, BLOCKS, 2, 1, 3), 0, value, 1719);
    IS(skv_s2_reading_vlow(dump, WORDS, eights, BLOCKS, 2, 1, 3), 0, value, 0); /* they don't pair */
    IS(skv_s2_skipped_vhigh(2, 0, 0), 0, value, 6110);
    IS(skv_s2_skipped_vinit(2, 0, 3), 0, value, 1685);
    IS(skv_s2_skipped_vlow(2, 1, 3), 0, value, 0);
    for (uint8_t atten = 0; atten < 4; atten++) {
        const SkvReading low = skv_s2_reading_vlow(dump, WORDS, eights, BLOCKS, 1, 1, atten);
        CHECK(plain(low.refusal, 0) && low.value >= 577);
        IS(skv_s2_skipped_vlow(1, 1, atten), 0, value, low.value);
        CHECK(skv_s2_reading_vhigh(dump, WORDS, eights, BLOCKS, 1, 1, atten).value > low.value);
    }
    memset(dump, 0xFF, sizeof dump);
    IS(skv_s2_reading_vinit(dump, WORDS, eights, BLOCKS, 2, 0, 3), 0, value, 1277);
    IS(skv_s2_reading_vhigh(dump, WORDS, eights, BLOCKS, 2, 1, 3), 0, value, 5077);
    IS(skv_s2_reading_vlow(dump, 87, eights, BLOCKS, 1, 2, 0), SKV_DUMP, value, 0);
    IS(skv_s2_reading_vhigh(dump, WORDS, eights, BLOCKS, 2, 2, 0), SKV_UNIT, value, 0);
    IS(skv_s2_reading_vinit(dump, WORDS, eights, BLOCKS, 2, 0, 4), SKV_UNIT, value, 0);
    IS(skv_s2_skipped_vlow(1, 0, 4), SKV_UNIT, value, 0);
    IS(skv_s2_skipped_vhigh(2, 2, 0), SKV_UNIT, value, 0);
    IS(skv_s2_skipped_vinit(2, 255, 255), SKV_UNIT, value, 0);
}

void s2(void)
{
    const uint16_t mv[4] = {600, 800, 1000, 2000};
    uint32_t dump[WORDS] = {0};
    uint8_t map[S2_MAP];
    s2_readings();
    s2_map(map);
    put_bits(dump, 4, 0, 8, 2);
    put_bits(dump, 4, 8, 8, 0x07);
    memset(dump + 16, 0xFF, 32);
    IS(skv_s2_version(dump, WORDS, eights, BLOCKS, map, S2_MAP), 0, version, 2);
    IS(skv_s2_flash_encryption(dump, WORDS, eights, BLOCKS, map, S2_MAP), 0, on, 1);
    IS(skv_s2_init_code(dump, WORDS, eights, BLOCKS, map, S2_MAP, 0, 3), 0, code, 1277);
    IS(skv_s2_cal_code(dump, WORDS, eights, BLOCKS, map, S2_MAP, 1, 3), 0, code, 5077);
    put_bits(dump, 4, 0, 8, 1);
    put_bits(dump, 4, 8, 8, 0x03);
    IS(skv_s2_version(dump, WORDS, eights, BLOCKS, map, S2_MAP), 0, version, 1);
    IS(skv_s2_flash_encryption(dump, WORDS, eights, BLOCKS, map, S2_MAP), 0, on, 0);
    IS(skv_s2_init_code(dump, WORDS, eights, BLOCKS, map, S2_MAP, 0, 3), SKV_NO_CODE, code, 0);
    IS(skv_s2_cal_code(dump, WORDS, eights, BLOCKS, map, S2_MAP, 0, 3), SKV_NO_CODE, code, 0);
    IS(skv_s2_init_code(dump, WORDS, eights, BLOCKS, map, 0, 2, 3), SKV_UNIT, code, 0);
    IS(skv_s2_cal_code(dump, WORDS, eights, BLOCKS, map, 0, 0, 3), SKV_MAP, code, 0);
    IS(skv_s2_version(dump, 0, eights, BLOCKS, map, 0), SKV_DUMP, version, 0);
    IS(skv_s2_version(dump, WORDS, eights, BLOCKS, map, 0), SKV_MAP, version, 0);
    IS(skv_s2_flash_encryption(dump, 0, eights, BLOCKS, map, 0), SKV_DUMP, on, 0);
    IS(skv_s2_flash_encryption(dump, WORDS, eights, BLOCKS, map, 0), SKV_MAP, on, 0);
    for (uint8_t atten = 0; atten < 4; atten++)
        IS(skv_s2_cal_mv(1, atten), 0, voltage.mv, mv[atten]);
    IS(skv_s2_cal_mv(0, 4), SKV_UNIT, voltage.mv, 0);
}

void c6(void)
{
    const uint16_t mv[2][4] = {{400, 550, 750, 1370}, {750, 1000, 1500, 2800}};
    uint32_t dump[WORDS] = {0};
    uint8_t map[C6_MAP];
    c6_map(map);
    put_bits(dump, 5, 10, 10, 5);     /* ADC1_INIT_CODE_ATTEN1 */
    put_bits(dump, 5, 40, 10, 0x3FF); /* ADC1_CAL_VOL_ATTEN0 */
    put_bits(dump, 5, 60, 10, 0x200); /* ADC1_CAL_VOL_ATTEN2 */
    put_bits(dump, 5, 104, 4, 0xF);   /* ADC1_INIT_CODE_ATTEN0_CH6 */
    CHECK(skv_c6_version(0) == 0 && skv_c6_version(1) == 1 && skv_c6_version(2) == 2 && skv_c6_version(255) == 2);
    IS(skv_c6_init_code(dump, WORDS, eights, BLOCKS, map, C6_MAP, 1, 0, 1), 0, code, 1605);
    IS(skv_c6_cal_code(dump, WORDS, eights, BLOCKS, map, C6_MAP, 2, 0, 2), 0, code, 2900);
    IS(skv_c6_cal_code(dump, WORDS, eights, BLOCKS, map, C6_MAP, 1, 0, 0), 0, code, 989);
    IS(skv_c6_get_chan_compens(dump, WORDS, eights, BLOCKS, map, C6_MAP, 0, 6, 0), 0, value, -28);
    IS(skv_c6_get_chan_compens(dump, WORDS, eights, BLOCKS, map, C6_MAP, 0, 255, 3), 0, value, -7);
    IS(skv_c6_get_chan_compens(dump, WORDS, eights, BLOCKS, map, C6_MAP, 0, 5, 3), 0, value, 0);
    IS(skv_c6_init_code(dump, WORDS, eights, BLOCKS, map, C6_MAP, 0, 0, 1), SKV_NO_CODE, code, 0);
    IS(skv_c6_cal_code(dump, WORDS, eights, BLOCKS, map, C6_MAP, 0, 0, 1), SKV_NO_CODE, code, 0);
    IS(skv_c6_init_code(dump, 0, eights, BLOCKS, map, 0, 0, 2, 1), SKV_DUMP, code, 0);
    IS(skv_c6_cal_code(dump, WORDS, eights, BLOCKS, map, 0, 0, 2, 1), SKV_UNIT, code, 0);
    IS(skv_c6_get_chan_compens(dump, WORDS, eights, BLOCKS, map, 0, 1, 0, 4), SKV_UNIT, value, 0);
    IS(skv_c6_get_chan_compens(dump, WORDS, eights, BLOCKS, map, 0, 1, 0, 3), SKV_MAP, value, 0);
    for (uint8_t atten = 0; atten < 4; atten++) {
        IS(skv_c6_cal_mv(0, 1, atten), 0, voltage.mv, mv[0][atten]);
        IS(skv_c6_cal_mv(1, 1, atten), 0, voltage.mv, mv[0][atten]);
        IS(skv_c6_cal_mv(2, 1, atten), 0, voltage.mv, mv[1][atten]);
    }
    IS(skv_c6_cal_mv(2, 2, 0), SKV_UNIT, voltage.mv, 0);
}

void curves(void)
{
    const SkvMillivolt one = {1}, zero = {0}, most = {4095}, above = {4096};
    IS(skv_correct(SKV_C3, 0, 0, 3, one), 0, voltage.mv, 2);
    IS(skv_correct(SKV_S3, 0, 1, 3, one), 0, voltage.mv, 0);
    for (int chip = SKV_C3; chip <= SKV_S3; chip++) {
        const int second = chip == SKV_C3 || chip == SKV_P4 || chip == SKV_S3;
        IS(skv_correct((uint8_t)chip, 2, 0, 3, zero), 0, voltage.mv, 0);
        CHECK(plain(skv_correct((uint8_t)chip, 2, 1, 3, zero).refusal, second ? 0 : SKV_CURVE));
        IS(skv_correct((uint8_t)chip, 2, 0, 3, above), SKV_LINE_ANSWER, voltage.mv, 0);
    }
    CHECK(skv_correct(SKV_C6, 1, 0, 3, most).voltage.mv != skv_correct(SKV_C6, 2, 0, 3, most).voltage.mv);
    CHECK(skv_correct(SKV_C6, 0, 0, 3, most).voltage.mv == skv_correct(SKV_C6, 1, 0, 3, most).voltage.mv);
    IS(skv_correct(SKV_ESP32, 0, 0, 0, one), SKV_CURVE, voltage.mv, 0);
    IS(skv_correct(SKV_S2, 0, 0, 0, above), SKV_CURVE, voltage.mv, 0);
    IS(skv_correct(9, 0, 0, 0, above), SKV_CURVE, voltage.mv, 0);
    IS(skv_correct(255, 0, 0, 0, one), SKV_CURVE, voltage.mv, 0);
    IS(skv_correct(255, 0, 2, 0, above), SKV_UNIT, voltage.mv, 0);
}
