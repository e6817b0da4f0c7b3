/* Lists of block lengths: which are refused, and before and after what else; and what each call reads, at every length of a block. */
#include "boards.h"
#include "check.h"
#include "suongkivat.h"

enum { MOST = 8, WORD = 32, BITS = 256, BYTES = 3, BEFORE = 0xAA };

typedef struct List {
    uint8_t lengths[BLOCKS + 1];
    size_t n;
} List;

/* As many eights. */
static List eights_of(size_t n)
{
    List list = {{0}, n};
    memset(list.lengths, MOST, n);
    return list;
}

/* Eleven eights, but for one block. */
static List with(int block, int length)
{
    List list = eights_of(BLOCKS);
    list.lengths[block] = (uint8_t)length;
    return list;
}

/* What a call is asked with. */
typedef struct Input {
    uint32_t dump[WORDS];
    size_t words;
    List list;
    uint8_t map[C6_MAP];
    size_t map_len;
    SkvField field;
    uint8_t unit;
    uint8_t minor;
    uint8_t board;
    uint8_t block;
    uint16_t raw;
} Input;

/* What a call answers: its refusal, and its values as one number, 0 where all are 0. */
typedef struct Told {
    SkvRefusal refusal;
    int64_t value;
} Told;

#define TOLD(call, part)                                                                                                              \
    do {                                                                                                                              \
        const Told told = {(call).refusal, (part)};                                                                                   \
        return told;                                                                                                                  \
    } while (0)
#define LIST in->list.lengths, in->list.n
#define DUMP in->dump, in->words, LIST
#define MAPPED DUMP, in->map, in->map_len

static Told read_u8(const Input *in)
{
    const SkvRead a = skv_read_field_u8(DUMP, in->field);
    TOLD(a, a.value);
}

static Told read_u16(const Input *in)
{
    const SkvRead a = skv_read_field_u16(DUMP, in->field);
    TOLD(a, a.value);
}

static Told read_u32(const Input *in)
{
    const SkvRead a = skv_read_field_u32(DUMP, in->field);
    TOLD(a, a.value);
}

/* What it wrote; bytes that stay as they were are 0. */
static Told read_le(const Input *in)
{
    uint8_t bytes[BYTES] = {BEFORE, BEFORE, BEFORE};
    const SkvOutcome a = skv_read_field_le(DUMP, in->field, bytes, BYTES);
    const int64_t as_before = BEFORE | BEFORE << 8 | BEFORE << 16;
    TOLD(a, (bytes[0] | bytes[1] << 8 | bytes[2] << 16) - (a.refusal.number == 0 ? 0 : as_before));
}

static Told viewed(const Input *in)
{
    const SkvView a = skv_view(in->dump, in->words, in->dump, in->words, LIST, in->board, in->block);
    TOLD(a, a.board * 10000 + (int64_t)a.first * 100 + a.words);
}

static Told check_esp32(const Input *in)
{
    TOLD(skv_check_map(SKV_ESP32, LIST, in->map, in->map_len), 0);
}

static Told check_s2(const Input *in)
{
    TOLD(skv_check_map(SKV_S2, LIST, in->map, in->map_len), 0);
}

static Told check_c6(const Input *in)
{
    TOLD(skv_check_map(SKV_C6, LIST, in->map, in->map_len), 0);
}

static Told decoded(const Input *in)
{
    const SkvDecoded a = skv_decode(MAPPED, in->unit, 3);
    const SkvLineRecord r = a.record;
    TOLD(a, (int64_t)r.coeff_a << 32 | r.coeff_b << 16 | r.vref << 3 | r.unit << 2 | r.attenuation << 1 | r.source);
}

static Told sampled(const Input *in)
{
    const SkvSample sample = {{in->raw}, in->board, 3};
    const SkvVoltage a = skv_sample(sample, in->dump, in->words, in->dump, in->words, LIST, in->map, in->map_len);
    TOLD(a, a.voltage.mv);
}

static Told s2_version(const Input *in)
{
    const SkvVersion a = skv_s2_version(MAPPED);
    TOLD(a, a.version);
}

static Told s2_encryption(const Input *in)
{
    const SkvFlashEncryption a = skv_s2_flash_encryption(MAPPED);
    TOLD(a, a.on);
}

static Told s2_vlow(const Input *in)
{
    const SkvReading a = skv_s2_reading_vlow(DUMP, 1, in->unit, 3);
    TOLD(a, a.value);
}

static Told s2_vhigh(const Input *in)
{
    const SkvReading a = skv_s2_reading_vhigh(DUMP, 2, in->unit, 3);
    TOLD(a, a.value);
}

static Told s2_vinit(const Input *in)
{
    const SkvReading a = skv_s2_reading_vinit(DUMP, 2, in->unit, 3);
    TOLD(a, a.value);
}

static Told s2_init(const Input *in)
{
    const SkvCode a = skv_s2_init_code(MAPPED, in->unit, 3);
    TOLD(a, a.code);
}

static Told s2_cal(const Input *in)
{
    const SkvCode a = skv_s2_cal_code(MAPPED, in->unit, 3);
    TOLD(a, a.code);
}

static Told c6_init(const Input *in)
{
    const SkvCode a = skv_c6_init_code(MAPPED, in->minor, in->unit, 3);
    TOLD(a, a.code);
}

static Told c6_cal(const Input *in)
{
    const SkvCode a = skv_c6_cal_code(MAPPED, in->minor, in->unit, 3);
    TOLD(a, a.code);
}

static Told c6_compens(const Input *in)
{
    const SkvReading a = skv_c6_get_chan_compens(MAPPED, in->unit, 6, 3);
    TOLD(a, a.value);
}

/* A chip's good map, its bytes, and its block and the widths of its fields, which stand there one after the other. */
typedef struct Mapped {
    void (*good)(uint8_t *map);
    size_t bytes;
    int block;
    const uint8_t *counts;
} Mapped;

static void no_map(uint8_t *map) { memset(map, 0, C6_MAP); }

static const Mapped none = {no_map, 0, 0, NULL};
static const Mapped esp32 = {esp32_map, ESP32_MAP, 3, esp32_counts};
static const Mapped s2s = {s2_map, S2_MAP, 4, s2_counts};
static const Mapped c6s = {c6_map, C6_MAP, 5, c6_counts};

/* Every call that takes a list: which map it takes, and its refusals in their order, up to a 0. Here 3 is that of a record. */
enum { NUMBERS = 8 };
typedef struct Call {
    Told (*asked)(const Input *in);
    const Mapped *mapped;
    uint8_t order[NUMBERS];
} Call;

static const Call calls[] = {
    {read_u8, &none, {1, 20, 4, 5}},
    {read_u16, &none, {1, 20, 4, 5}},
    {read_u32, &none, {1, 20, 4, 5}},
    {read_le, &none, {1, 20, 4, 5}},
    {viewed, &none, {15, 1, 20, 4}},
    {check_esp32, &esp32, {20, 2, 3}},
    {check_s2, &s2s, {20, 2, 3}},
    {check_c6, &c6s, {20, 2, 3}},
    {decoded, &esp32, {1, 20, 7, 2, 3, 9}},
    {sampled, &esp32, {15, 1, 20, 2, 3, 9, 8}},
    {s2_version, &s2s, {1, 20, 2, 3}},
    {s2_encryption, &s2s, {1, 20, 2, 3}},
    {s2_vlow, &none, {1, 20, 7, 5}},
    {s2_vhigh, &none, {1, 20, 7, 5}},
    {s2_vinit, &none, {1, 20, 7, 5}},
    {s2_init, &s2s, {1, 20, 7, 2, 3, 12, 5}},
    {s2_cal, &s2s, {1, 20, 7, 2, 3, 12, 5}},
    {c6_init, &c6s, {1, 20, 7, 2, 3, 12}},
    {c6_cal, &c6s, {1, 20, 7, 2, 3, 12}},
    {c6_compens, &c6s, {1, 20, 7, 2, 3}},
};
enum { CALLS = sizeof calls / sizeof calls[0] };

/* With nothing wrong. The dump has ones but for the map's fields, which are zeros, or an S2's version 2. */
static Input good(const Call *call)
{
    Input in = {{0}, WORDS, {{0}, 0}, {0}, 0, {10, 10, 20}, 0, 1, 0, 10, 0};
    memset(in.dump, 0xFF, sizeof in.dump);
    for (int block = 3; block <= 5; block++)
        memset(in.dump + 8 * block, 0, 8 * sizeof in.dump[0]);
    put_bits(in.dump, 4, 0, 8, 2);
    in.list = eights_of(BLOCKS);
    call->mapped->good(in.map);
    in.map_len = call->mapped->bytes;
    return in;
}

/* By two points the line would begin below 0 mV, at every attenuation. */
static void underflow(Input *in)
{
    put_bits(in->dump, 3, RESERVE, 1, 1);
    put_bits(in->dump, 3, LOW, 7, 63);
    put_bits(in->dump, 3, LOW2, 7, 1);
    put_bits(in->dump, 3, HIGH, 9, 0x101);
    put_bits(in->dump, 3, HIGH2, 9, 1);
}

/* Makes the input wrong as a number says, with a list for 20. */
static void spoil(Input *in, int number, const List *bad)
{
    switch (number) {
    case SKV_DUMP: in->words = WORDS - 1; break;
    case SKV_MAP: in->map_len--; break;
    case SKV_MAP_ID: in->map[8] = 0; break; /* record 1 */
    case SKV_BLOCK: in->field.block = in->block = BLOCKS; break;
    case SKV_BIT_RANGE: in->list.lengths[2] = in->list.lengths[10] = 0; break; /* what a reading reads, and the field */
    case SKV_UNIT: in->unit = 2; break;
    case SKV_RAW: in->raw = SKV_COUNTS; break;
    case SKV_UNDERFLOW: underflow(in); break;
    case SKV_NO_CODE: in->minor = 0; put_bits(in->dump, 4, 0, 8, 1); break;
    case SKV_BOARD: in->board = 2; break;
    case SKV_LENGTHS: in->list = *bad; break;
    default: CHECK(0);
    }
}

/* A call with those of its faults that a mask has: the first of them is told, and zeros beside it. */
static void faults(const Call *call, unsigned mask, const List *bad)
{
    Input in = good(call);
    int number = 0;
    for (int k = NUMBERS - 1; k >= 0; k--)
        if (call->order[k] != 0 && mask >> k & 1) {
            number = call->order[k];
            if (number != SKV_LENGTHS)
                spoil(&in, number, bad);
        }
    for (int k = 0; k < NUMBERS; k++) /* a bad list takes the place of one that is only too short */
        if (call->order[k] == SKV_LENGTHS && mask >> k & 1)
            spoil(&in, SKV_LENGTHS, bad);
    const Told told = call->asked(&in);
    CHECK(tells(told.refusal, number, number == SKV_MAP_ID ? 1 : 0, 0));
    CHECK(number == 0 || told.value == 0);
}

static int numbers_of(const Call *call)
{
    int n = 0;
    while (n < NUMBERS && call->order[n] != 0)
        n++;
    return n;
}

/* Every call with every set of its faults. */
static void orders(const List *bad)
{
    for (int k = 0; k < CALLS; k++)
        for (unsigned mask = 0; mask < 1u << numbers_of(&calls[k]); mask++)
            faults(&calls[k], mask, bad);
}

/* A list that isn't eleven lengths, or has one above 8 at a place. */
static void bad_lists(void)
{
    const int above[] = {MOST + 1, 16, 128, 255};
    for (size_t n = 0; n <= BLOCKS + 1; n++) {
        const List list = eights_of(n);
        if (n != BLOCKS)
            orders(&list);
    }
    for (int block = 0; block < BLOCKS; block++)
        for (size_t k = 0; k < sizeof above / sizeof above[0]; k++) {
            const List list = with(block, above[k]);
            orders(&list);
        }
}

/* A chip that has no map: the list is told before that. */
static void chips_without_a_map(void)
{
    uint8_t map[C6_MAP];
    esp32_map(map);
    for (int chip = 0; chip <= 255; chip++) {
        const List list = with(chip % BLOCKS, 9);
        CHECK(plain(skv_check_map((uint8_t)chip, list.lengths, BLOCKS, map, ESP32_MAP).refusal, SKV_LENGTHS));
        CHECK(plain(skv_check_map((uint8_t)chip, eights, BLOCKS - 1, map, 0).refusal, SKV_LENGTHS));
        CHECK(plain(skv_check_map((uint8_t)chip, eights, BLOCKS, map, 0).refusal, SKV_MAP));
    }
}

/* The bits of a field by themselves, up to 32 of them. */
static uint32_t bits_of(const uint32_t *dump, SkvField f)
{
    uint32_t value = 0;
    for (int k = 0; k < f.bit_count && k < WORD; k++)
        value |= (dump[8 * f.block + (f.bit_start + k) / WORD] >> (f.bit_start + k) % WORD & 1) << k;
    return value;
}

/* A field is read if it lies inside its block's own length, and else refused; bytes then stay as they were. */
static void one_field(const uint32_t *dump, const List *list, int start, int count, int block)
{
    const SkvField f = {(uint8_t)block, (uint16_t)start, (uint16_t)count};
    const int inside = start < BITS && start + count <= WORD * list->lengths[block];
    const uint32_t value = inside ? bits_of(dump, f) : 0;
    const int number = inside ? SKV_NONE : SKV_BIT_RANGE;
    uint8_t bytes[BYTES] = {BEFORE, BEFORE, BEFORE};
    IS(skv_read_field_u8(dump, WORDS, list->lengths, BLOCKS, f), number, value, (uint8_t)value);
    IS(skv_read_field_u16(dump, WORDS, list->lengths, BLOCKS, f), number, value, (uint16_t)value);
    IS(skv_read_field_u32(dump, WORDS, list->lengths, BLOCKS, f), number, value, value);
    CHECK(plain(skv_read_field_le(dump, WORDS, list->lengths, BLOCKS, f, bytes, BYTES).refusal, number));
    for (int k = 0; k < BYTES; k++)
        CHECK(bytes[k] == (inside ? (uint8_t)(value >> 8 * k) : BEFORE));
}

/* Around the end of a block: empty fields, fields that end there, and those with a bit or more past it. */
static void around(const uint32_t *dump, const List *list, int block)
{
    const int end = WORD * list->lengths[block];
    for (int start = end < 34 ? 0 : end - 34; start <= end + 2; start++)
        for (int count = 0; count <= 34; count++)
            one_field(dump, list, start, count, block);
    one_field(dump, list, 0, end, block);
    one_field(dump, list, 0, end + 1, block);
    one_field(dump, list, end, 0, block);
    one_field(dump, list, 65535, 0, block);
    one_field(dump, list, 1, 65535, block);
    one_field(dump, list, 65535, 65535, block);
}

/* Every block with every length, the other blocks with eight words, and with none. */
static void edges_of_blocks(void)
{
    uint32_t dump[WORDS], noise = 109;
    for (int k = 0; k < WORDS; k++)
        dump[k] = noise = noise * 1664525 + 1013904223;
    for (int block = 0; block < BLOCKS; block++)
        for (int length = 0; length <= MOST; length++) {
            const List list = with(block, length);
            List alone = {{0}, BLOCKS};
            alone.lengths[block] = (uint8_t)length;
            around(dump, &list, block);
            around(dump, &alone, block);
        }
}

static int is_view(SkvView view, int board, int first, int words)
{
    return plain(view.refusal, 0) && view.board == board && view.first == (uint32_t)first && view.words == (uint32_t)words;
}

/* A view begins where its block does, and has the block's own words: the words themselves, of the board that was asked for. */
static void views_by(const List *list)
{
    static uint32_t field[WORDS], reference[WORDS];
    const uint32_t *const dumps[2] = {field, reference};
    for (int k = 0; k < WORDS; k++) {
        field[k] = (uint32_t)k;
        reference[k] = (uint32_t)k + 1000;
    }
    for (int board = 0; board < 2; board++)
        for (int block = 0; block < BLOCKS; block++) {
            const int words = list->lengths[block];
            const SkvView view =
                skv_view(field, WORDS, reference, WORDS, list->lengths, BLOCKS, (uint8_t)board, (uint8_t)block);
            CHECK(is_view(view, board, 8 * block, words));
            for (int k = 0; k < words; k++)
                CHECK(dumps[view.board][view.first + (uint32_t)k] == (uint32_t)(1000 * board + 8 * block + k));
        }
}

static void views_of_blocks(void)
{
    for (int block = 0; block < BLOCKS; block++)
        for (int length = 0; length <= MOST; length++) {
            const List list = with(block, length);
            views_by(&list);
        }
    for (int first = 0; first <= MOST; first++) {
        List mixed = {{0}, BLOCKS};
        for (int block = 0; block < BLOCKS; block++)
            mixed.lengths[block] = (uint8_t)((first + 5 * block) % (MOST + 1));
        views_by(&mixed);
    }
}

/* The first of a map's records whose field ends past so many words; as many records as there are, if none does. */
static int first_past(const Mapped *mapped, int words)
{
    const int records = (int)mapped->bytes / 8;
    int end = 0, record = 0;
    while (record < records && (end += mapped->counts[record]) <= WORD * words)
        record++;
    return record;
}

/* Every call with a map, while its map's block has so many words: 5 with the first record past them, else as with eight. */
static void map_by(const Call *call, int words)
{
    const int record = first_past(call->mapped, words), past = record < (int)call->mapped->bytes / 8;
    Input in = good(call);
    const Told whole = call->asked(&in);
    in.list = with(call->mapped->block, words);
    const Told told = call->asked(&in);
    CHECK(plain(whole.refusal, 0));
    CHECK(past ? tells(told.refusal, SKV_BIT_RANGE, record, 0) : plain(told.refusal, 0));
    CHECK(told.value == (past ? 0 : whole.value));
}

static void maps_by_length(void)
{
    for (int k = 0; k < CALLS; k++)
        for (int words = 0; words <= MOST; words++)
            if (calls[k].mapped->bytes != 0)
                map_by(&calls[k], words);
}

/* The S2's table: of each tag from 1 on its field in block 2, and the tag that it depends on. */
typedef struct Tag {
    int start;
    int count;
    int depends;
} Tag;

static const Tag tags[33] = {
    {0, 0, 0},
    {208, 6, 0}, {214, 6, 0}, {220, 6, 0}, {226, 6, 0}, {232, 6, 0}, {238, 6, 0}, {244, 6, 0}, {250, 6, 0},
    {144, 8, 0}, {152, 8, 0}, {160, 8, 0}, {168, 8, 0}, {176, 8, 0}, {184, 8, 0}, {192, 8, 0}, {200, 8, 0},
    {197, 6, 19}, {203, 6, 19}, {209, 9, 22}, {218, 7, 19}, {225, 7, 22}, {232, 10, 0}, {242, 7, 22}, {249, 7, 22},
    {147, 8, 0}, {155, 6, 25}, {161, 5, 26}, {166, 6, 27}, {172, 8, 0}, {180, 6, 29}, {186, 5, 30}, {191, 6, 31},
};

/* Whether each field along a tag's chain lies inside so many words. */
static int inside(int tag, int words)
{
    for (; tag != 0; tag = tags[tag].depends)
        if (tags[tag].start + tags[tag].count > WORD * words)
            return 0;
    return 1;
}

/* The call and the version that read a tag. */
static SkvReading reading(const uint32_t *dump, const uint8_t *list, int tag)
{
    const uint8_t unit = (uint8_t)((tag - 1) / 4 % 2), atten = (uint8_t)((tag - 1) % 4), version = tag <= 16 ? 1 : 2;
    if (tag <= 8)
        return skv_s2_reading_vlow(dump, WORDS, list, BLOCKS, version, unit, atten);
    if (tag <= 24)
        return skv_s2_reading_vhigh(dump, WORDS, list, BLOCKS, version, unit, atten);
    return skv_s2_reading_vinit(dump, WORDS, list, BLOCKS, version, unit, atten);
}

/* The code that a tag of version 2 is. */
static SkvCode code(const uint32_t *dump, const uint8_t *list, int tag)
{
    const uint8_t unit = (uint8_t)((tag - 1) / 4 % 2), atten = (uint8_t)((tag - 1) % 4);
    uint8_t map[S2_MAP];
    s2_map(map);
    return tag <= 24 ? skv_s2_cal_code(dump, WORDS, list, BLOCKS, map, S2_MAP, unit, atten)
                     : skv_s2_init_code(dump, WORDS, list, BLOCKS, map, S2_MAP, unit, atten);
}

/* A tag while block 2 has so many words: as with eight if its chain is inside, else 5, which is of no record, of the code too. */
static void one_tag(const uint32_t *dump, int tag, int words)
{
    const List list = with(2, words);
    const int is_inside = inside(tag, words), number = is_inside ? SKV_NONE : SKV_BIT_RANGE;
    const SkvReading whole = reading(dump, eights, tag);
    CHECK(plain(whole.refusal, 0) && whole.value >= 577);
    IS(reading(dump, list.lengths, tag), number, value, is_inside ? whole.value : 0);
    if (tag <= 16)
        return;
    IS(code(dump, list.lengths, tag), number, code, is_inside ? whole.value : 0);
}

/* A version and a parameter that don't pair read nothing, of whatever length block 2 is. */
static void unpaired(const uint32_t *dump, int words)
{
    const List list = with(2, words);
    for (int version = 0; version <= 255; version++) {
        const uint8_t v = (uint8_t)version;
        if (version != 1)
            IS(skv_s2_reading_vlow(dump, WORDS, list.lengths, BLOCKS, v, 1, 3), 0, value, 0);
        if (version != 1 && version != 2)
            IS(skv_s2_reading_vhigh(dump, WORDS, list.lengths, BLOCKS, v, 1, 3), 0, value, 0);
        if (version != 2)
            IS(skv_s2_reading_vinit(dump, WORDS, list.lengths, BLOCKS, v, 1, 3), 0, value, 0);
    }
}

static void s2_by_length(void)
{
    uint32_t dump[WORDS];
    memset(dump, 0x5A, sizeof dump);
    put_bits(dump, 4, 0, 8, 2);
    for (int words = 0; words <= MOST; words++) {
        for (int tag = 1; tag <= 32; tag++)
            one_tag(dump, tag, words);
        unpaired(dump, words);
    }
    for (int tag = 1; tag <= 32; tag++) /* at 7 words */
        CHECK(inside(tag, 7) == !((tag >= 3 && tag <= 8) || (tag >= 17 && tag <= 24)));
}

void lengths(void)
{
    bad_lists();
    chips_without_a_map();
    edges_of_blocks();
    views_of_blocks();
    maps_by_length();
    s2_by_length();
}
