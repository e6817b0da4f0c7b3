/* Suongkivat from C: the records of two boards, a few counts by each, and a log's samples as the desk program answers them. Run in a
   folder with field.bin, reference.bin, map.bin, samples.bin and, where the chip has short blocks, lengths.bin; examples/run
   builds it. */
#include "suongkivat.h"

#include <errno.h>
#include <stdio.h>

enum { WORD = 4 };

/* Sources and attenuations in words, by their numbers. */
static const char *const sources[] = {[SKV_TWO_POINT] = "two points", [SKV_VREF] = "Vref"};
static const char *const attenuations[] = {"0 dB", "2.5 dB", "6 dB", "11 dB"};

typedef struct Dump {
    uint32_t words[SKV_DUMP_WORDS];
    size_t len;
} Dump;

/* A list or a map; there is room for a byte too many, so that a file which is too long is refused. */
typedef struct Lengths {
    uint8_t bytes[SKV_BLOCKS + 1];
    size_t len;
} Lengths;

typedef struct Map {
    uint8_t bytes[SKV_ESP32_MAP_BYTES + 1];
    size_t len;
} Map;

/* The boards, and what both go by. */
typedef struct Session {
    Dump field;
    Dump reference;
    Lengths lengths;
    Map map;
} Session;

/* Reads up to that many bytes of a file; a missing one counts as empty. */
static size_t load(const char *name, uint8_t *bytes, size_t size)
{
    FILE *file = fopen(name, "rb");
    const size_t n = file ? fread(bytes, 1, size, file) : 0;
    if (file)
        fclose(file);
    return n;
}

/* A dump file has 88 words, low byte first; one of another length is a dump without words, which each call refuses. */
static Dump load_dump(const char *name)
{
    uint8_t bytes[SKV_DUMP_WORDS * WORD + 1];
    Dump dump = {{0}, 0};
    if (load(name, bytes, sizeof bytes) == SKV_DUMP_WORDS * WORD)
        dump.len = SKV_DUMP_WORDS;
    for (size_t k = 0; k < dump.len * WORD; k++)
        dump.words[k / WORD] |= (uint32_t)bytes[k] << (8 * (k % WORD));
    return dump;
}

/* How many words each block has: without a file eight, as the desk program has it. */
static Lengths load_lengths(const char *name)
{
    Lengths lengths = {SKV_EIGHTS, SKV_BLOCKS};
    FILE *file = fopen(name, "rb");
    if (file) {
        lengths.len = fread(lengths.bytes, 1, sizeof lengths.bytes, file);
        fclose(file);
    } else if (errno != ENOENT) {
        lengths.len = 0; /* it is there, and can't be read */
    }
    return lengths;
}

static Map load_map(const char *name)
{
    Map map;
    map.len = load(name, map.bytes, sizeof map.bytes);
    return map;
}

static void print_answer(SkvVoltage answer)
{
    if (answer.refusal.number == SKV_NONE)
        printf("%u\n", answer.voltage.mv);
    else
        printf("refused %u\n", answer.refusal.number);
}

/* Why there is no record, and which record of the map is bad, where it is one. */
static void print_undecoded(SkvRefusal refusal)
{
    printf("refused %u", refusal.number);
    switch (refusal.number) {
    case SKV_MAP_ID:
    case SKV_BLOCK:
    case SKV_BIT_RANGE:
    case SKV_BIT_COUNT:
        printf(": map record %u", refusal.record);
        break;
    case SKV_MAP_BYTE:
        printf(": map record %u, byte %u", refusal.record, refusal.place);
        break;
    }
    printf("\n");
}

/* A board's record for a unit and an attenuation, with where it comes from, and what it makes of a few counts. */
static void print_record(char board, const Session *s, uint8_t unit, uint8_t atten)
{
    const SkvCount counts[] = {{0}, {2880}, {2912}, {4095}, {4096}};
    const Dump *dump = board == 'F' ? &s->field : &s->reference;
    const SkvDecoded decoded =
        skv_decode(dump->words, dump->len, s->lengths.bytes, s->lengths.len, s->map.bytes, s->map.len, unit, atten);
    const SkvLineRecord cal = decoded.record;
    printf("record %c, unit %u, attenuation %u: ", board, unit, atten);
    if (decoded.refusal.number != SKV_NONE) {
        print_undecoded(decoded.refusal);
        return;
    }
    printf("by %s at %s, ", sources[cal.source], attenuations[cal.attenuation]);
    printf("a %u, b %u, Vref %u\n", cal.coeff_a, cal.coeff_b, cal.vref);
    for (size_t k = 0; k < sizeof counts / sizeof counts[0]; k++) {
        printf("count %u: ", counts[k].raw);
        print_answer(skv_convert(cal, counts[k]));
    }
}

/* A log of any length, sample by sample; what is left at its end is none, or a torn one. */
static void print_log(const char *name, const Session *s)
{
    FILE *log = fopen(name, "rb");
    for (unsigned long number = 0; log; number++) {
        uint8_t bytes[SKV_SAMPLE_BYTES];
        const SkvNext next = skv_next_sample(bytes, fread(bytes, 1, sizeof bytes, log));
        const SkvSample sample = next.sample;
        if (next.whole == 0) {
            if (next.refusal.number != SKV_NONE)
                printf("refused %u\n", next.refusal.number);
            fclose(log);
            return;
        }
        printf("%lu %c %u ", number, sample.board == 0 ? 'F' : sample.board == 1 ? 'R' : '?', sample.raw.raw);
        print_answer(skv_sample(sample, s->field.words, s->field.len, s->reference.words, s->reference.len, s->lengths.bytes,
                                s->lengths.len, s->map.bytes, s->map.len));
    }
}

int main(void)
{
    const Session session = {load_dump("field.bin"), load_dump("reference.bin"), load_lengths("lengths.bin"), load_map("map.bin")};
    print_record('F', &session, 0, 3);
    print_record('F', &session, 1, 0);
    print_record('R', &session, 0, 3);
    print_log("samples.bin", &session);
    return 0;
}
