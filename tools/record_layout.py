"""The bytes of a table (docs/FORMATS.md, Table). What a record holds, and where, is said here only."""
from typing import NamedTuple, Optional

from values import TERMS, TRUST_ZERO, TRUSTS, Refused


class Record(NamedTuple):
    subject: int
    predicate: int
    object: int
    trust: Optional[int]  # None if it is unknown

    @property
    def key(self):
        """What tables rise by."""
        return self.subject, self.predicate, self.object


# The values of each field; an unknown trust has none.
RANGES = {"subject": TERMS, "predicate": TERMS, "object": TERMS, "trust": TRUSTS}
# The bits of a record, from the most significant one. `known` is 1 if the trust is known; the trust is 0 if it is not.
BITS = {"subject": 20, "predicate": 20, "object": 20, "known": 1, "trust": 11}
RECORD_BYTES = sum(BITS.values()) // 8
MOST_RECORDS = 65_535


def pack(record):
    known = record.trust is not None
    fields = {**record._asdict(), "known": int(known), "trust": record.trust + TRUST_ZERO if known else 0}
    number = 0
    for name, bits in BITS.items():
        number = number << bits | fields[name]
    return number.to_bytes(RECORD_BYTES, "big")


def unpack(data):
    """The record in so many bytes; None if a field is out of range."""
    number = int.from_bytes(data, "big")
    fields = {}
    for name, bits in reversed(BITS.items()):
        fields[name] = number & ((1 << bits) - 1)
        number >>= bits
    trust = fields["trust"] - TRUST_ZERO
    if not fields.pop("known"):
        if fields["trust"] != 0:
            return None
        trust = None
    fields["trust"] = trust
    if any(fields[name] not in values for name, values in RANGES.items() if fields[name] is not None):
        return None
    return Record(**fields)


def write_table(records):
    """The bytes of records that rise."""
    return b"".join(map(pack, records))


def read_table(data):
    """The records of a table."""
    if len(data) % RECORD_BYTES != 0:
        raise Refused(1, 0, f"the length is not a multiple of {RECORD_BYTES}")
    if len(data) > MOST_RECORDS * RECORD_BYTES:
        raise Refused(2, 0, f"more than {MOST_RECORDS} records")
    records = []
    for place in range(len(data) // RECORD_BYTES):
        record = unpack(data[place * RECORD_BYTES : (place + 1) * RECORD_BYTES])
        if record is None:
            raise Refused(3, place, "a term or the trust of this record has no valid value")
        if records and record.key <= records[-1].key:
            raise Refused(4, place, "this record is not above the one before it")
        records.append(record)
    return records
