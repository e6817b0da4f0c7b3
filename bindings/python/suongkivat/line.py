"""ESP32 line calibration: the line record of a board, and what it makes of counts."""
from __future__ import annotations

import dataclasses
from typing import TYPE_CHECKING, Any, Iterable, SupportsIndex, Tuple, Type, Union

from . import raw
from .arrays import Numbers, looked_up, written, written_lent
from .lent import Bytes, DumpSource, Lengths, bytes_lent, dump_lent, lengths_lent
from .library import ask
from .units import Millivolt, Source, count, held

if TYPE_CHECKING:
    from numpy.typing import NDArray

# The attenuation at which the lookup is used.
LOOKUP = 3


@dataclasses.dataclass(frozen=True)
class LineRecord:
    """What counts are converted by, and where it came from: a up to 131071, b up to 4095, vref 995 to 1205, unit 0 or 1, attenuation 0 to
    3, and the source, of Source. By Vref a and b are exactly those that vref gives for the unit and the attenuation. `decode` makes one
    of a dump; one made by hand is refused where it is used (10), if it isn't such a record.
    """

    coeff_a: int
    coeff_b: int
    vref: int
    unit: int
    attenuation: int
    source: int

    def __post_init__(self) -> None:
        wide = (held(name, getattr(self, name), 32) for name in ("coeff_a", "coeff_b", "vref"))
        narrow = (held(name, getattr(self, name), 8) for name in ("unit", "attenuation", "source"))
        object.__setattr__(self, "_raw", raw.SkvLineRecord(*wide, *narrow))

    @property
    def uses_lookup(self) -> bool:
        """Whether the lookup is used: at 11 dB, whatever the source."""
        return self.attenuation == LOOKUP

    @property
    def as_c(self) -> raw.SkvLineRecord:
        """The record as C has it."""
        return self._raw  # type: ignore[attr-defined, no-any-return]

    def check(self) -> None:
        """Refusal 10."""
        ask("skv_check_record", self.as_c)

    def convert(self, number: SupportsIndex) -> Millivolt:
        """A count's millivolts. Refusals 10, 8."""
        return Millivolt(ask("skv_convert", self.as_c, raw.SkvCount(count(number))).voltage.mv)

    def fill(self, first_count: SupportsIndex, millivolts: Any) -> None:
        """Writes the millivolts of the counts from a first one on into lent memory, all of it: numpy.uint16, array('H') or the like.
        Refusals 10, 11, which leave it as it was.
        """
        ask("skv_fill", self.as_c, raw.SkvCount(count(first_count)), *written_lent(millivolts))

    def table(self, first_count: SupportsIndex = 0, length: SupportsIndex = raw.COUNTS) -> Numbers:
        """The millivolts of so many counts from a first one on; of all counts, if nothing else is said. Refusals 10, 11."""
        first = raw.SkvCount(count(first_count))
        # A list that is longer than all counts is refused as the shortest such is, and needs no more memory.
        most = min(held("a length", length, 64), raw.COUNTS + 1)
        return written(most, lambda memory, n: ask("skv_fill", self.as_c, first, memory, n))

    def millivolts(self, counts: Union[Iterable[int], NDArray[Any]]) -> Numbers:
        """The millivolts of many counts, in their order. Refusals 10; 8, of which `at` is the first place."""
        return looked_up(self.table(), counts)

    def __reduce__(self) -> Tuple[Type[LineRecord], Tuple[int, ...]]:
        """It is pickled and copied by its six parts."""
        return type(self), tuple(getattr(self, part.name) for part in dataclasses.fields(self))

    def __setstate__(self, state: Any) -> None:
        """What only a record has that was pickled before version 3.0: the bytes that C had of it, where now an attenuation and a source
        would be read.
        """
        raise ValueError("this record was stored before version 3.0, without its attenuation and its source: decode its board again")


def decode(dump: DumpSource, lengths: Lengths, field_map: Bytes, unit: SupportsIndex, attenuation: SupportsIndex) -> LineRecord:
    """The line record of a dump's unit at an attenuation. Refusals 1, 20, 7, the map's, 9."""
    lent = (*dump_lent(dump), *lengths_lent(lengths), *bytes_lent(field_map))
    found = ask("skv_decode", *lent, held("a unit", unit, 8), held("an attenuation", attenuation, 8)).record
    return LineRecord(found.coeff_a, found.coeff_b, found.vref, found.unit, found.attenuation, Source(found.source))
