"""A board, and a session of two: what they hold, and what they answer."""
from __future__ import annotations

from typing import TYPE_CHECKING, Any, Iterable, Iterator, NamedTuple, Optional, SupportsIndex, Union

from . import fields, line, raw
from .arrays import Numbers
from .lent import Bytes, Dump, DumpSource, Lengths, bytes_lent, bytes_of, lengths_of
from .library import ask
from .logs import Sample, samples
from .refusals import Refused
from .units import Millivolt, count, held

if TYPE_CHECKING:
    from numpy.typing import NDArray


class Board:
    """An ESP32 board: its dump, how many words each block has, and the map that says where the fields stand, each a file or its bytes;
    EIGHTS is the list of a chip whose blocks all have eight words. What is wrong with any of them is told by the first call that needs it.
    """

    def __init__(self, dump: DumpSource, lengths: Lengths, field_map: Bytes) -> None:
        self.dump = Dump(dump)
        self.lengths = lengths_of(lengths)
        self.field_map = bytes_of(field_map)

    def record(self, unit: SupportsIndex, attenuation: SupportsIndex) -> line.LineRecord:
        """The line record of a unit at an attenuation. Refusals 1, 20, 7, the map's, 9."""
        return line.decode(self.dump, self.lengths, self.field_map, unit, attenuation)

    def records(self) -> Iterator[line.LineRecord]:
        """The eight line records: unit 0 at attenuations 0 to 3, then unit 1."""
        for unit in 0, 1:
            for attenuation in range(4):
                yield self.record(unit, attenuation)

    def convert(self, unit: SupportsIndex, attenuation: SupportsIndex, number: SupportsIndex) -> Millivolt:
        """A count's millivolts. Refusals 1, 20, 7, the map's, 9, 8."""
        return self.record(unit, attenuation).convert(number)

    def table(self, unit: SupportsIndex, attenuation: SupportsIndex) -> Numbers:
        """The millivolts of all 4,096 counts. Refusals 1, 20, 7, the map's, 9."""
        return self.record(unit, attenuation).table()

    def millivolts(self, unit: SupportsIndex, attenuation: SupportsIndex, counts: Union[Iterable[int], NDArray[Any]]) -> Numbers:
        """The millivolts of many counts, in their order. Refusals 1, 20, 7, the map's, 9; 8, of which `at` is the first place."""
        return self.record(unit, attenuation).millivolts(counts)


class Answer(NamedTuple):
    """What a log's sample comes to: millivolts, or why there are none."""

    number: int
    sample: Sample
    millivolts: Optional[Millivolt]
    refused: Optional[Refused]


class Session:
    """Two ESP32 boards, field (0) and reference (1), and the block lengths and the map that both go by; each is a file or its bytes."""

    def __init__(self, field: DumpSource, reference: DumpSource, lengths: Lengths, field_map: Bytes) -> None:
        self.field = Board(field, lengths, field_map)
        self.reference = Board(reference, self.field.lengths, self.field.field_map)
        by = (*bytes_lent(self.field.lengths), *bytes_lent(self.field.field_map))
        self._lent = (*self.field.dump.lent, *self.reference.dump.lent, *by)

    def view(self, board: SupportsIndex, block: SupportsIndex) -> memoryview:
        """The words that a board's block has, perhaps none, which are not copied. Refusals 15, 1, 20, 4."""
        return fields.view(self.field.dump, self.reference.dump, self.field.lengths, board, block)

    def sample(self, sample: Sample) -> Millivolt:
        """A sample's millivolts, by the dump of its board. Refusals 15, 1, 20, 7, the map's, 9, 8."""
        parts = raw.SkvCount(count(sample.raw)), held("a board", sample.board, 8), held("a last byte", sample.last, 8)
        return Millivolt(ask("skv_sample", raw.SkvSample(*parts), *self._lent).voltage.mv)

    def answers(self, log: Bytes) -> Iterator[Answer]:
        """The answers to a log's samples, numbered from 0. A sample that is refused has no millivolts; where the log ends inside a sample,
        Refused is raised (16) after the answers to those before it.
        """
        for number, sample in enumerate(samples(log)):
            try:
                yield Answer(number, sample, self.sample(sample), None)
            except Refused as refused:
                yield Answer(number, sample, None, refused)
