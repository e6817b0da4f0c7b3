/* The sizes and places of a line record and of the answers, which a caller's program is compiled with. Where one has to change, so has the
   header's first version number. A line record, and every answer but a decoded one, fits the 16 bytes that cross in registers. */
#include "check.h"
#include "suongkivat.h"

#define SIZE(type, bytes) CHECK(sizeof(type) == (bytes))
#define AT(type, member, place) CHECK(offsetof(type, member) == (place))

void sizes(void)
{
    SIZE(SkvRefusal, 3);
    AT(SkvRefusal, number, 0);
    AT(SkvRefusal, record, 1);
    AT(SkvRefusal, place, 2);
    SIZE(SkvOutcome, 3);
    SIZE(SkvVoltage, 6);
    AT(SkvVoltage, voltage, 4);
    SIZE(SkvCode, 6);
    AT(SkvCode, code, 4);
    SIZE(SkvReading, 8);
    AT(SkvReading, value, 4);
    SIZE(SkvRead, 8);
    AT(SkvRead, value, 4);
    SIZE(SkvView, 12);
    AT(SkvView, board, 3);
    AT(SkvView, first, 4);
    AT(SkvView, words, 8);
    SIZE(SkvLineRecord, 16);
    AT(SkvLineRecord, coeff_a, 0);
    AT(SkvLineRecord, coeff_b, 4);
    AT(SkvLineRecord, vref, 8);
    AT(SkvLineRecord, unit, 12);
    AT(SkvLineRecord, attenuation, 13);
    AT(SkvLineRecord, source, 14);
    SIZE(SkvDecoded, 20);
    AT(SkvDecoded, record, 4);
    SIZE(SkvVersion, 4);
    AT(SkvVersion, version, 3);
    SIZE(SkvFlashEncryption, 4);
    AT(SkvFlashEncryption, on, 3);
    SIZE(SkvNext, 8);
    AT(SkvNext, whole, 3);
    AT(SkvNext, sample, 4);
}
