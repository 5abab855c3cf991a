"""What classes of information hold ([MS-FSCC] 2.4 and 2.5), and which of their fields no server chooses."""
from tools import frame as frame_tool

TIMES = 'CreationTime:8 LastAccessTime:8 LastWriteTime:8 ChangeTime:8 '
BASIC = TIMES + 'FileAttributes:4 Reserved:4 '
STANDARD = 'AllocationSize:8 EndOfFile:8 NumberOfLinks:4 DeletePending:1 Directory:1 Reserved2:2 '
INTERNAL, EA, ACCESS, POSITION = 'IndexNumber:8 ', 'EaSize:4 ', 'AccessFlags:4 ', 'CurrentByteOffset:8 '
MODE, ALIGNMENT, NAME = 'Mode:4 ', 'AlignmentRequirement:4 ', 'FileNameLength:4'
# The fixed fields of a class, by the type of information and the class.
LAYOUTS = {
    (1, 4): BASIC, (1, 5): STANDARD, (1, 6): INTERNAL, (1, 7): EA, (1, 8): ACCESS, (1, 14): POSITION, (1, 16): MODE,
    (1, 17): ALIGNMENT, (1, 18): BASIC + STANDARD + INTERNAL + EA + ACCESS + POSITION + MODE + ALIGNMENT + NAME,
    (1, 34): TIMES + 'AllocationSize:8 EndOfFile:8 FileAttributes:4 Reserved:4',
    (1, 35): 'FileAttributes:4 ReparseTag:4',
    (2, 1): 'VolumeCreationTime:8 VolumeSerialNumber:4 VolumeLabelLength:4 SupportsObjects:1 Reserved:1',
    (2, 3): 'TotalAllocationUnits:8 AvailableAllocationUnits:8 SectorsPerAllocationUnit:4 BytesPerSector:4',
    (2, 4): 'DeviceType:4 Characteristics:4',
    (2, 5): 'FileSystemAttributes:4 MaximumComponentNameLength:4 FileSystemNameLength:4',
    (2, 7): 'TotalAllocationUnits:8 CallerAvailableAllocationUnits:8 ActualAvailableAllocationUnits:8 '
            'SectorsPerAllocationUnit:4 BytesPerSector:4',
}
# Those with a text behind the fixed fields, whose length a server chooses too.
WITH_TEXT = ((1, 18), (2, 1), (2, 5))
# The fields that are compared; a server chooses all others.
COMPARED = ('FileAttributes', 'EndOfFile', 'NumberOfLinks', 'DeletePending', 'Directory', 'EaSize', 'AccessFlags',
            'CurrentByteOffset', 'Mode', 'ReparseTag', 'DeviceType')

FOLDER = 0x10
BEGINNING = 'NextEntryOffset:4 FileIndex:4 '
DIRECTORY = BEGINNING + TIMES + 'EndOfFile:8 AllocationSize:8 FileAttributes:4 FileNameLength:4 '
BOTH = DIRECTORY + 'EaSize:4 ShortNameLength:1 Reserved:1 ShortName:24 '
# The fixed fields of an entry of a listing, by the class.
ENTRIES = {
    1: DIRECTORY, 2: DIRECTORY + 'EaSize:4', 3: BOTH, 12: BEGINNING + 'FileNameLength:4',
    37: BOTH + 'Reserved2:2 FileId:8', 38: DIRECTORY + 'EaSize:4 Reserved:4 FileId:8',
}


def fields_of(layout):
    return frame_tool.table(layout)[0]


def size_of(layout):
    """How many bytes the fixed fields of a layout take."""
    return sum(it[1] for it in fields_of(layout))


def text_of(name, number):
    """A field as a report shows it."""
    if name == 'FileAttributes':
        return frame_tool.told(name, 4, number.to_bytes(4, 'little'))
    return f'0x{number:08x}' if name in ('AccessFlags', 'Mode', 'ReparseTag') else str(number)


def is_compared(name, numbers):
    """The EndOfFile of a directory is a server's choice."""
    return name != 'EndOfFile' or not (numbers.get('FileAttributes', 0) & FOLDER or numbers.get('Directory'))


def information(kind, number, buffer, is_whole):
    """The fields of an answer to QUERY_INFO that are compared, as texts; of what is not whole none."""
    layout = LAYOUTS.get((kind, number))
    if layout is None or not is_whole:
        return {}
    found = {} if (kind, number) in WITH_TEXT else {'OutputBufferLength': str(len(buffer))}
    if len(buffer) < size_of(layout):
        return {'OutputBufferLength': f'{len(buffer)}, less than the fixed fields'}
    values, end = frame_tool.read_fields(buffer, fields_of(layout), 0)
    numbers = {name: int.from_bytes(raw, 'little') for name, raw in values.items()}
    found.update({name: text_of(name, numbers[name]) for name in COMPARED
                  if name in numbers and is_compared(name, numbers)})
    if (kind, number) == (1, 18):
        name = buffer[end:end + numbers['FileNameLength']].decode('utf-16-le', 'replace')
        found['the last part of FileName'] = name.rpartition('\\')[2]
    return found


def entries(number, buffer):
    """The entries of an answer to QUERY_DIRECTORY: of each the name, and the fixed fields as numbers. One that is not
    whole is Unread."""
    at, step, found = 0, None, []
    while step != 0 and buffer and number in ENTRIES:
        values, end = frame_tool.read_fields(buffer, fields_of(ENTRIES[number]), at)
        numbers = {name: int.from_bytes(raw, 'little') for name, raw in values.items()}
        name, step = buffer[end:end + numbers['FileNameLength']], numbers['NextEntryOffset']
        if len(name) != numbers['FileNameLength'] or 0 < step < end - at:
            raise frame_tool.Unread(f'an entry is not whole, at {at} of {len(buffer)} bytes')
        found.append((name.decode('utf-16-le', 'replace'), numbers))
        at += step
    return found


def entry_text(name, numbers):
    """An entry as a report shows it: its name, EndOfFile and attributes, as far as they are compared."""
    fields = [it for it in ('EndOfFile', 'FileAttributes') if it in numbers and is_compared(it, numbers)]
    return ' '.join([name, *(f'{it}={text_of(it, numbers[it])}' for it in fields)])
