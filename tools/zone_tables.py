#!/usr/bin/env python3
"""Makes the data of crates/zone_tables, and what the program must print.

usage: python3 tools/zone_tables.py        at the top of the repository; it takes two minutes

Fat files are copied from /usr/share/zoneinfo, slim ones are made by `zic -b slim` from the tzdata.zi that stands there. Values
and changes are what Python's zoneinfo tells, its reader in C and its reader in Python, which have to agree. Where a damaged file
is refused is told by `first_wrong`, which states the check anew from docs/RULES.md. Nothing here runs the library.

After the last transition zoneinfo goes by the footer, which the library does not read yet, and before the first one it takes the
first type that is not daylight time, where the library takes type 0. So a table goes from the second before the first
transition, where the script makes sure that both take the same offset, to the last transition.
"""
import datetime
import io
import os
import struct
import subprocess
import tempfile
import zoneinfo
from zoneinfo import _zoneinfo

SYSTEM = '/usr/share/zoneinfo'
CRATE = 'crates/zone_tables'
DATA = CRATE + '/data'
LIMIT = 65536
# the name in data/, the zone, the form
FILES = [
    ('Dublin.fat', 'Europe/Dublin', 'fat'),
    ('Dublin.slim', 'Europe/Dublin', 'slim'),
    ('Apia.fat', 'Pacific/Apia', 'fat'),
    ('Apia.slim', 'Pacific/Apia', 'slim'),
    ('LordHowe.fat', 'Australia/Lord_Howe', 'fat'),
    ('LordHowe.slim', 'Australia/Lord_Howe', 'slim'),
    ('Qyzylorda.fat', 'Asia/Qyzylorda', 'fat'),
    ('Qyzylorda.slim', 'Asia/Qyzylorda', 'slim'),
    ('Manila.fat', 'Asia/Manila', 'fat'),
    ('Manila.slim', 'Asia/Manila', 'slim'),
    ('Monrovia.fat', 'Africa/Monrovia', 'fat'),
    ('Monrovia.slim', 'Africa/Monrovia', 'slim'),
    ('Casablanca.slim', 'Africa/Casablanca', 'slim'),
    ('Nuuk.slim', 'America/Nuuk', 'slim'),
    ('UTC.fat', 'Etc/UTC', 'fat'),
    ('UTC.slim', 'Etc/UTC', 'slim'),
]
# the file that is cut at each of its places, and those whose bytes are flipped
CUT = 'Apia.slim'
HEADERS_FLIPPED = ['Apia.fat', 'Nuuk.slim']
ALL_FLIPPED = 'Monrovia.slim'
MASKS = [0x01, 0x80, 0xFF]
EPOCH = datetime.datetime(1970, 1, 1, tzinfo=datetime.timezone.utc)


# ── the files ──


def made_files():
    with tempfile.TemporaryDirectory() as slim:
        subprocess.run(['zic', '-b', 'slim', '-d', slim, SYSTEM + '/tzdata.zi'], check=True)
        roots = {'fat': SYSTEM, 'slim': slim}
        return {name: read(os.path.join(roots[form], zone)) for name, zone, form in FILES}


def read(path):
    with open(path, 'rb') as file:
        return file.read()


def header(file, at):
    """The six counts of the header at a place: isut, isstd, leap, time, type, char."""
    return struct.unpack('>6I', file[at + 20 : at + 44])


def second_header(file):
    isut, isstd, leap, time, kind, char = header(file, 0)
    return 44 + time * 5 + kind * 6 + char + leap * 8 + isstd + isut


def transitions(file):
    """The seconds of the second block's transitions, and the offset of type 0: only to choose instants, and to see where zoneinfo takes another type first."""
    at = second_header(file)
    time = header(file, at)[3]
    seconds = list(struct.unpack(f'>{time}q', file[at + 44 : at + 44 + 8 * time]))
    return seconds, struct.unpack('>i', file[at + 44 + 9 * time : at + 48 + 9 * time])[0]


# ── values, by zoneinfo ──


class Reader:
    """A file as zoneinfo's two readers tell it, the one in C and the one in Python."""

    def __init__(self, file):
        self.both = [kind.from_file(io.BytesIO(file)) for kind in (zoneinfo.ZoneInfo, _zoneinfo.ZoneInfo)]

    def offset(self, second):
        at = EPOCH + datetime.timedelta(seconds=second)
        offsets = {at.astimezone(zone).utcoffset() for zone in self.both}
        if len(offsets) != 1:
            raise ValueError(f'zoneinfo tells two offsets at {second}')
        return int(offsets.pop().total_seconds())

    def changes(self, low, high):
        """The seconds past `low` up to `high` from which another offset holds, found by steps of an hour and halving."""
        found, last, step = [], self.offset(low), 3600
        for at in range(low, high + step, step):
            start, end = at, min(at + step, high)
            while start < end and self.offset(end) != last:
                first = self.first_of(start, end, last)
                found.append(first)
                start, last = first, self.offset(first)
        return found

    def first_of(self, low, high, last):
        while high - low > 1:
            middle = (low + high) // 2
            low, high = (middle, high) if self.offset(middle) == last else (low, middle)
        return high


def values(name, file):
    """The rows of a file's table: second and offset."""
    seconds, first_offset = transitions(file)
    reader = Reader(file)
    if not seconds:
        # no transition and a footer of the same offset: one value throughout
        return [(second, reader.offset(second)) for second in (-62135596800, -1, 0, 253402300799)]
    if reader.offset(seconds[0] - 1) != first_offset:
        raise ValueError(f'{name}: zoneinfo begins with another type than type 0')
    instants = set(seconds) | {second - 1 for second in seconds}
    for before, after in zip(seconds, seconds[1:]):
        instants |= {before + 1, (before + after) // 2, after - 3600} if after - before > 7200 else {(before + after) // 2}
    rows = [(second, reader.offset(second)) for second in sorted(instants)]
    scanned = reader.changes(seconds[0] - 1, seconds[-1])
    if scanned != changes(rows):
        raise ValueError(f'{name}: zoneinfo changes at other seconds than the transitions')
    return rows


def changes(rows):
    """The seconds of a table whose offset differs from that of the second before."""
    return [here for (before, last), (here, offset) in zip(rows, rows[1:]) if before + 1 == here and last != offset]


# ── the check, as docs/RULES.md states it ──


def fields(file):
    """The fields in file order: place, size, and a test of the place where one is due. A field is asked for only once those before it are found whole and right."""
    version = None
    for header_number in (1, 2):
        start = 0 if header_number == 1 else place
        yield start, 4, lambda at: file[at : at + 4] == b'TZif'
        if header_number == 1:
            yield start + 4, 1, lambda at: file[at : at + 1] in (b'2', b'3')
            version = file[4]
            yield 5, 39, None
            place = second_header(file)
            yield 44, place - 44, None
    yield start + 4, 1, lambda at: file[at] == version
    yield start + 5, 23, None
    yield start + 28, 4, lambda at: number(file, at, 4) == 0
    yield start + 32, 4, lambda at: number(file, at, 4) <= 2000
    yield start + 36, 4, lambda at: 1 <= number(file, at, 4) <= 256
    yield start + 40, 4, None
    yield from block_fields(file, start + 44, header(file, start))


def block_fields(file, place, counts):
    isut, isstd, _, time, kind, char = counts
    for k in range(time):
        yield place, 8, lambda at: k == 0 or signed(file, at - 8, 8) < signed(file, at, 8)
        place += 8
    for k in range(time):
        yield place, 1, lambda at: file[at] < kind
        place += 1
    for k in range(kind):
        yield place, 4, lambda at: abs(signed(file, at, 4)) <= 86399
        yield place + 4, 2, None
        place += 6
    yield place, char + isstd + isut, None
    place += char + isstd + isut
    yield place, 1, lambda at: file[at] == 10
    place += 1
    newline = file.find(b'\n', place)
    end = len(file) if newline < 0 else newline
    yield place, end - place, None
    yield end, 1, lambda at: file[at] == 10
    yield end + 1, 0, lambda at: at == len(file)


def number(file, at, size):
    return int.from_bytes(file[at : at + size], 'big')


def signed(file, at, size):
    return int.from_bytes(file[at : at + size], 'big', signed=True)


def first_wrong(file):
    """The place where a file is refused, or none."""
    for place, size, right in fields(file):
        if place + size > len(file):
            return min(len(file), LIMIT)
        if right and not right(place):
            return min(place, LIMIT)
    return LIMIT if len(file) > LIMIT else None


# ── damages ──


def flipped(file, at, mask):
    return file[:at] + bytes([file[at] ^ mask]) + file[at + 1 :]


def appended(file, count, byte):
    return file + bytes([byte]) * count


def inserted(file, count, byte):
    """The first block longer by so many bytes at its front, which its header counts as designations."""
    char = number(file, 40, 4) + count
    return file[:40] + char.to_bytes(4, 'big') + bytes([byte]) * count + file[44:]


DAMAGES = {'flip': flipped, 'append': appended, 'insert': inserted}


def damages(files):
    """The rows of damages: what is done, the file, a place or a count, a byte."""
    rows = []
    for name in HEADERS_FLIPPED:
        second = second_header(files[name])
        for at in [*range(44), *range(second, second + 44)]:
            rows += [('flip', name, at, mask) for mask in MASKS]
    for at in range(len(files[ALL_FLIPPED])):
        rows += [('flip', ALL_FLIPPED, at, mask) for mask in MASKS]
    for name in ('UTC.slim', 'Nuuk.slim'):
        rows += [('append', name, count, byte) for count in (1, 2, 500) for byte in (0, 10, 84)]
    for name in ('UTC.slim', 'Dublin.fat'):
        size = len(files[name])
        rows += [('insert', name, length - size, 0) for length in (size + 1, LIMIT - 1, LIMIT, LIMIT + 1, LIMIT + 5000)]
    return [(*row, first_wrong(DAMAGES[row[0]](files[row[1]], row[2], row[3]))) for row in rows]


# ── what is written ──


def write_tables(files, tables, damage_rows):
    os.makedirs(DATA, exist_ok=True)
    version = open(SYSTEM + '/tzdata.zi').readline().split()[-1]
    for name, zone, form in FILES:
        with open(f'{DATA}/{name}.tzif', 'wb') as out:
            out.write(files[name])
        with open(f'{DATA}/{name}.tsv', 'w') as out:
            out.write(f'# {zone}, {form}, of tz database {version}: second, offset as zoneinfo tells it\n')
            out.writelines(f'{second}\t{offset}\n' for second, offset in tables[name])
    with open(f'{DATA}/damages.tsv', 'w') as out:
        out.write('# what is done, to which file, at which place or how often, with which byte; then the place of the refusal, or ok\n')
        for kind, name, count, byte, place in damage_rows:
            out.write(f'{kind}\t{name}\t{count}\t{byte}\t{"ok" if place is None else place}\n')


# ── what the program must print ──


SECONDS = [999_999, 1_000_000, 1_999_999, 2_000_000, 1_325_239_199, 1_325_239_200]
AFTERS = [0, 1_000_000, 1_300_000_000]
NAMES = ['UTC', 'Test/H', 'Site/One', 'Site/Two', 'Site/Three']


def good(name, files, tables):
    """A zone over a good file: its values at SECONDS, its first changes after AFTERS."""
    reader = Reader(files[name])
    seconds = changes(tables[name])
    return [str(reader.offset(s)) for s in SECONDS], [next((t for t in seconds if t > after), None) for after in AFTERS]


def stepping():
    """Test/H: 3,600 but 7,200 from second 1,000,000 up to 2,000,000."""
    values = [str(7200 if 1_000_000 <= s < 2_000_000 else 3600) for s in SECONDS]
    return values, [next((t for t in (1_000_000, 2_000_000) if t > after), None) for after in AFTERS]


def blank(depth):
    return [f'blank 1 {depth}'] * len(SECONDS), [None] * len(AFTERS)


def source_lines(title, zones):
    """What is printed of a source, given as the names and zones of its numbers."""
    yield f'{title}: {len(zones)} zones'
    order = [name for name, _ in zones]
    for name in NAMES:
        yield f'  {name} is {order.index(name) if name in order else "none"}'
    nothing = (['none'] * len(SECONDS), [None] * len(AFTERS))
    for number, (name, (values, firsts)) in enumerate([*zones, ('none', nothing)]):
        yield f'  {number} {name}: {" ".join(v + ";" for v in values)} {" ".join("no change;" if t is None else f"{t};" for t in firsts)}'.rstrip()


def side_lines(files, tables):
    home = [('UTC', good('UTC.slim', files, tables)), ('Test/H', stepping())]
    one = ('Site/One', good('Apia.slim', files, tables))
    yield from source_lines('UTC and Test/H', home)
    yield from source_lines('Site/One and a missing Site/Two', [one, ('Site/Two', blank(1))])
    yield from source_lines('the two pairs', [*home, one, ('Site/Two', blank(2))])
    yield from source_lines('the two pairs, Site/One cut short', [*home, ('Site/One', blank(2)), ('Site/Two', blank(2))])


def compared(count):
    return f'{count} compared, 0 differ'


def expected(files, tables, damage_rows):
    counts = {name: (len(tables[name]), len(changes(tables[name])) + 1) for name in files}
    for name, (value_count, change_count) in counts.items():
        yield f'{name}: values {compared(value_count)}; changes and their end {compared(change_count)}'
    cuts = len(files[CUT])
    kinds = [('cuts of ' + CUT, cuts, cuts)]
    for kind, words in (('flip', 'flipped bytes'), ('append', 'trailing bytes'), ('insert', 'longer first blocks')):
        places = [row[-1] for row in damage_rows if row[0] == kind]
        kinds.append((words, len(places), len([place for place in places if place is not None])))
    for words, places, blanks in kinds:
        yield f'{words}: places {compared(places)}; blanks {compared(blanks)}'
    yield from side_lines(files, tables)
    sums = [sum(column) for column in (*zip(*counts.values()), *list(zip(*kinds))[1:])]
    words = ('values', 'changes and their ends', 'places', 'blanks')
    yield 'total: ' + '; '.join(f'{word} {compared(count)}' for word, count in zip(words, sums))


def main():
    files = made_files()
    for name, file in files.items():
        if first_wrong(file) is not None or [first_wrong(file[:k]) for k in range(len(file))] != list(range(len(file))):
            raise ValueError(f'{name}: the model refuses a good file, or a cut at another place')
    tables = {name: values(name, file) for name, file in files.items()}
    damage_rows = damages(files)
    write_tables(files, tables, damage_rows)
    with open(CRATE + '/stdout', 'w') as out:
        out.writelines(line + '\n' for line in expected(files, tables, damage_rows))


if __name__ == '__main__':
    main()
