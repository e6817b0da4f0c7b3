/* Counting checks: what a test file has in common. */
#ifndef CHECK_H
#define CHECK_H

#include "suongkivat.h"

void check(int good, const char *file, int line, const char *what);

#define CHECK(e) check((e), __FILE__, __LINE__, #e)

/* A refusal's three bytes. */
static inline int tells(SkvRefusal refusal, int number, int record, int place)
{
    return refusal.number == number && refusal.record == record && refusal.place == place;
}

/* A number that is of no record of a map, or none: it tells 0 and 0. */
static inline int plain(SkvRefusal refusal, int number) { return tells(refusal, number, 0, 0); }

/* An answer with that number and that value; a refusal has zeros. */
#define IS(a, n, member, v) (CHECK(plain((a).refusal, (n))), CHECK((a).member == (v)))

/* A line record of zeros, as it is beside a refusal. */
static inline int is_zero(SkvLineRecord r)
{
    return r.coeff_a == 0 && r.coeff_b == 0 && r.vref == 0 && r.unit == 0 && r.attenuation == 0 && r.source == 0;
}

void sizes(void);
void fields(void);
void edges(void);
void lengths(void);
void maps(void);
void records(void);
void lines(void);
void sources(void);
void s2(void);
void c6(void);
void curves(void);
void logs(void);

#endif
