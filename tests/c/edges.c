/* Fields that end with the dump, and lists of block lengths. Behind the last word or byte stands a page that may not be read: who reads one
   more is stopped. */
#define _DEFAULT_SOURCE
#include "boards.h"
#include "check.h"
#include "suongkivat.h"

#include <signal.h>
#include <sys/mman.h>
#include <unistd.h>

/* The dump's last two words, as one number. */
static const uint64_t LAST = 0x7654321089ABCDEF;

/* Where a page begins that may not be read, behind one that may; none where the system has no such pages. */
static uint8_t *wall(void)
{
    const size_t page = (size_t)sysconf(_SC_PAGESIZE);
    uint8_t *pages = mmap(NULL, 2 * page, PROT_READ | PROT_WRITE, MAP_PRIVATE | MAP_ANONYMOUS, -1, 0);
    if (pages == MAP_FAILED || mprotect(pages + page, page, PROT_NONE) != 0)
        return NULL;
    return pages + page;
}

static void stopped(int number)
{
    static const char told[] = "edges.c: a word behind the dump or a byte behind the list was read\n";
    (void)number;
    _exit(write(STDOUT_FILENO, told, sizeof told - 1) < 0 ? 2 : 1);
}

static void dumps(uint32_t *dump)
{
    put_bits(dump, 10, 192, 32, (uint32_t)LAST);
    put_bits(dump, 10, 224, 32, (uint32_t)(LAST >> 32));
    for (int start = 192; start < 256; start++) {
        const SkvField field = {10, (uint16_t)start, (uint16_t)(256 - start)};
        const uint64_t wanted = LAST >> (start - 192);
        IS(skv_read_field_u8(dump, WORDS, eights, BLOCKS, field), 0, value, (uint8_t)wanted);
        IS(skv_read_field_u16(dump, WORDS, eights, BLOCKS, field), 0, value, (uint16_t)wanted);
        IS(skv_read_field_u32(dump, WORDS, eights, BLOCKS, field), 0, value, (uint32_t)wanted);
        uint8_t bytes[9];
        CHECK(plain(skv_read_field_le(dump, WORDS, eights, BLOCKS, field, bytes, 9).refusal, 0));
        for (int i = 0; i < 9; i++)
            CHECK(bytes[i] == (i < 8 ? (uint8_t)(wanted >> (8 * i)) : 0));
    }
}

/* As many eights as there are before the wall. */
static void list(const uint8_t *lengths, size_t n)
{
    static const uint32_t dump[WORDS];
    const int number = n == BLOCKS ? SKV_NONE : SKV_LENGTHS;
    const SkvField field = {10, 0, 32};
    const SkvSample sample = {{0}, 1, 3};
    uint8_t map[C6_MAP];
    CHECK(plain(skv_read_field_u32(dump, WORDS, lengths, n, field).refusal, number));
    CHECK(plain(skv_view(dump, WORDS, dump, WORDS, lengths, n, 1, 10).refusal, number));
    CHECK(plain(skv_s2_reading_vlow(dump, WORDS, lengths, n, 1, 0, 3).refusal, number));
    esp32_map(map);
    CHECK(plain(skv_check_map(SKV_ESP32, lengths, n, map, ESP32_MAP).refusal, number));
    CHECK(plain(skv_decode(dump, WORDS, lengths, n, map, ESP32_MAP, 0, 3).refusal, number));
    CHECK(plain(skv_sample(sample, dump, WORDS, dump, WORDS, lengths, n, map, ESP32_MAP).refusal, number));
    s2_map(map);
    CHECK(plain(skv_s2_version(dump, WORDS, lengths, n, map, S2_MAP).refusal, number));
    CHECK(plain(skv_s2_init_code(dump, WORDS, lengths, n, map, S2_MAP, 0, 3).refusal, number == 0 ? SKV_NO_CODE : number));
    c6_map(map);
    CHECK(plain(skv_c6_get_chan_compens(dump, WORDS, lengths, n, map, C6_MAP, 0, 6, 3).refusal, number));
}

void edges(void)
{
    uint8_t *end = wall();
    CHECK(end != NULL);
    if (end == NULL)
        return;
    signal(SIGSEGV, stopped);
    dumps((uint32_t *)(void *)end - WORDS);
    memset(end - 16, 8, 16);
    for (size_t n = 0; n <= 16; n++)
        list(end - n, n);
    signal(SIGSEGV, SIG_DFL);
}
