/* Line records: where they come from, as decoding tells it, and which of them are taken. */
#include "boards.h"
#include "check.h"
#include "suongkivat.h"

enum { UNITS = 2, ATTENUATIONS = 4, LEAST_VREF = 995, MOST_VREF = 1205, MOST_A = 131071, MOST_B = 4095 };
enum { BEFORE = 65535 }; /* what lent lists hold before a call, and no answer is */

/* What a and b are by Vref, at each unit and attenuation: vref x scale / 4096, and the offset. */
static const uint32_t scales[UNITS][ATTENUATIONS] = {{57431, 76236, 105481, 196602}, {57236, 76175, 105678, 197170}};
static const uint32_t offsets[UNITS][ATTENUATIONS] = {{75, 78, 107, 142}, {63, 66, 89, 128}};

static const SkvCount middle = {2880}, last = {4095}, above = {4096};

static SkvLineRecord by_vref(uint32_t vref, int unit, int attenuation)
{
    const SkvLineRecord r = {vref * scales[unit][attenuation] / 4096, offsets[unit][attenuation], vref,
                             (uint8_t)unit, (uint8_t)attenuation, SKV_VREF};
    return r;
}

static SkvLineRecord by_two_points(uint32_t a, uint32_t b, uint32_t vref, int unit, int attenuation)
{
    const SkvLineRecord r = {a, b, vref, (uint8_t)unit, (uint8_t)attenuation, SKV_TWO_POINT};
    return r;
}

static uint32_t line(SkvLineRecord r, SkvCount count) { return (r.coeff_a * count.raw + 32768) / 65536 + r.coeff_b; }

/* Every call takes the record. At 2880 the answer is the line's, whatever the attenuation. */
static void taken(SkvLineRecord r)
{
    uint16_t list[2] = {BEFORE, BEFORE};
    CHECK(plain(skv_check_record(r).refusal, 0));
    IS(skv_convert(r, middle), 0, voltage.mv, line(r, middle));
    CHECK(plain(skv_fill(r, last, list, 1).refusal, 0));
    IS(skv_convert(r, last), 0, voltage.mv, list[0]);
    CHECK(list[0] != BEFORE && list[1] == BEFORE);
}

/* Every call refuses the record, however good or bad the count (8) and the stretch (11) are, and leaves the list as it was. */
static void refused(SkvLineRecord r)
{
    uint16_t list[2] = {BEFORE, BEFORE};
    CHECK(plain(skv_check_record(r).refusal, SKV_LINE_RECORD));
    IS(skv_convert(r, last), SKV_LINE_RECORD, voltage.mv, 0);
    IS(skv_convert(r, above), SKV_LINE_RECORD, voltage.mv, 0);
    CHECK(plain(skv_fill(r, last, list, 1).refusal, SKV_LINE_RECORD));
    CHECK(plain(skv_fill(r, last, list, 2).refusal, SKV_LINE_RECORD));
    CHECK(plain(skv_fill(r, above, list, 0).refusal, SKV_LINE_RECORD));
    CHECK(list[0] == BEFORE && list[1] == BEFORE);
}

/* By Vref there is one record of a vref, a unit and an attenuation; by two points its a and b may be others. With the same a and b both
   give the same millivolts. */
static void one_by_vref(uint32_t vref, int unit, int attenuation)
{
    const SkvLineRecord good = by_vref(vref, unit, attenuation);
    const SkvLineRecord points = by_two_points(good.coeff_a, good.coeff_b, vref, unit, attenuation);
    SkvLineRecord beside[4] = {good, good, good, good};
    beside[0].coeff_a--;
    beside[1].coeff_a++;
    beside[2].coeff_b--;
    beside[3].coeff_b++;
    taken(good);
    taken(points);
    CHECK(skv_convert(good, last).voltage.mv == skv_convert(points, last).voltage.mv);
    for (int i = 0; i < 4; i++) {
        refused(beside[i]);
        beside[i].source = SKV_TWO_POINT;
        taken(beside[i]);
    }
}

static void each_by_vref(int unit, int attenuation)
{
    for (uint32_t vref = LEAST_VREF; vref <= MOST_VREF; vref++)
        one_by_vref(vref, unit, attenuation);
    refused(by_vref(LEAST_VREF - 1, unit, attenuation));
    refused(by_vref(MOST_VREF + 1, unit, attenuation));
    for (int key = 0; key < UNITS * ATTENUATIONS; key++) {
        SkvLineRecord another = by_vref(1100, unit, attenuation);
        another.unit = (uint8_t)(key / ATTENUATIONS);
        another.attenuation = (uint8_t)(key % ATTENUATIONS);
        if (another.unit != unit || another.attenuation != attenuation)
            refused(another);
    }
}

static void any_by_two_points(int unit, int attenuation)
{
    for (uint32_t a = 0; a <= MOST_A; a += 4681)
        for (uint32_t b = 0; b <= MOST_B; b += 315)
            taken(by_two_points(a, b, LEAST_VREF + a % 211, unit, attenuation));
    taken(by_two_points(MOST_A, MOST_B, MOST_VREF, unit, attenuation));
    refused(by_two_points(MOST_A + 1, 0, 1100, unit, attenuation));
    refused(by_two_points(UINT32_MAX, 0, 1100, unit, attenuation));
    refused(by_two_points(0, MOST_B + 1, 1100, unit, attenuation));
    refused(by_two_points(0, UINT32_MAX, 1100, unit, attenuation));
    refused(by_two_points(0, 0, LEAST_VREF - 1, unit, attenuation));
    refused(by_two_points(0, 0, MOST_VREF + 1, unit, attenuation));
}

/* Of a good record, with every other byte for unit, attenuation and source. */
static void other_bytes(SkvLineRecord good)
{
    for (int byte = 2; byte <= 255; byte++) {
        SkvLineRecord unit = good, attenuation = good, source = good;
        unit.unit = attenuation.attenuation = source.source = (uint8_t)byte;
        refused(unit);
        refused(source);
        if (byte >= ATTENUATIONS)
            refused(attenuation);
    }
}

/* The record's last byte is not looked at. */
static void last_byte(SkvLineRecord good)
{
    uint8_t bytes[sizeof good];
    memcpy(bytes, &good, sizeof good);
    for (int byte = 0; byte <= 255; byte++) {
        SkvLineRecord r;
        uint16_t list[1] = {BEFORE};
        bytes[15] = (uint8_t)byte;
        memcpy(&r, bytes, sizeof r);
        CHECK(plain(skv_check_record(r).refusal, 0));
        IS(skv_convert(r, middle), 0, voltage.mv, line(good, middle));
        CHECK(plain(skv_fill(r, middle, list, 1).refusal, 0) && list[0] == line(good, middle));
    }
}

/* The line of this record is 0 mV at every count, and the lookup is at none: what isn't 0 is of the lookup. */
static void looked_up(int unit, int attenuation)
{
    static uint16_t table[SKV_COUNTS];
    const SkvLineRecord r = by_two_points(0, 0, 1100, unit, attenuation);
    const SkvCount first = {0};
    CHECK(plain(skv_fill(r, first, table, SKV_COUNTS).refusal, 0));
    for (int raw = 0; raw < SKV_COUNTS; raw++) {
        const SkvCount count = {(uint16_t)raw};
        CHECK((table[raw] != 0) == (attenuation == 3 && raw > 2880));
        CHECK(skv_convert(r, count).voltage.mv == table[raw]);
    }
}

/* A board whose reserve bit and four codes are 1, but for one of these five, which is 0; none of them where that is 5. */
static SkvDecoded board_without(int which, int unit, int attenuation)
{
    static const int places[5] = {RESERVE, LOW, LOW2, HIGH, HIGH2};
    uint32_t dump[WORDS] = {0};
    uint8_t map[ESP32_MAP];
    esp32_map(map);
    for (int k = 0; k < 5; k++)
        put_bits(dump, 3, places[k], 1, k != which);
    return skv_decode(dump, WORDS, eights, BLOCKS, map, ESP32_MAP, (uint8_t)unit, (uint8_t)attenuation);
}

static void decoded(int unit, int attenuation)
{
    for (int which = 0; which <= 5; which++) {
        const SkvDecoded d = board_without(which, unit, attenuation);
        const SkvLineRecord r = d.record, vref = by_vref(1100, unit, attenuation);
        CHECK(plain(d.refusal, 0) && r.vref == 1100 && r.unit == unit && r.attenuation == attenuation);
        CHECK(r.source == (which == 5 ? SKV_TWO_POINT : SKV_VREF));
        CHECK(which == 5 || (r.coeff_a == vref.coeff_a && r.coeff_b == vref.coeff_b));
        taken(r);
    }
}

void sources(void)
{
    for (int unit = 0; unit < UNITS; unit++)
        for (int attenuation = 0; attenuation < ATTENUATIONS; attenuation++) {
            decoded(unit, attenuation);
            each_by_vref(unit, attenuation);
            any_by_two_points(unit, attenuation);
            looked_up(unit, attenuation);
            other_bytes(by_vref(1100, unit, attenuation));
            other_bytes(by_two_points(MOST_A, MOST_B, 1100, unit, attenuation));
            last_byte(by_vref(1100, unit, attenuation));
            last_byte(by_two_points(MOST_A, MOST_B, 1100, unit, attenuation));
        }
}
