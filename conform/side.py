"""One of the two servers: the clients that are in there, their opens, and the directories of scripts."""
import collections
import os

from conform import information
from conform.login import Refused, comes_in, new_guid, share_path
from conform.places import Places, asked_in
from conform.statuses import name_of
from conform.steps import (ALL, BASIC, DISPOSITION, RESTART_SCANS, RETURN_SINGLE_ENTRY, WHOLE, Comes, Frame, List,
                           attributes_are, deletes)
from conform.wire import BROKEN, CANCEL, Fault, command_in, framed, whole
from tools import frame as frame_tool

NAME_COLLISION, OVERFLOW, NOT_EMPTY = 0xC0000035, 0x80000005, 0xC0000101
# That nothing is at a path.
GONE = (0xC0000034, 0xC000003A)
READONLY, FOLDER, NORMAL = 1, 0x10, 0x80
# How many names are tried for a directory; how often a directory is listed at most, to be removed, and in a script.
NAMES, LISTINGS, QUERIES = 20, 1_000, 60

# The field of a listing in which its entries are, in one order.
ENTRIES = 'entries'

# What is seen of a request, or of all that list: the command, the status, the fields that are compared as texts, each
# request with its answer; and where it was refused: the number of the client's connection, and of its refusals.
Seen = collections.namedtuple('Seen', 'command status fields exchanges refused')


class Side:
    """A server with the clients that a run has there; each comes in when it is first needed."""

    def __init__(self, server, dialects):
        self.server, self.dialects = server, dialects
        # The clients by name, those of a row by `#` and its number; all that ever came, in order.
        self.links, self.came, self.top, self.at = {}, [], '', ''
        # The ClientGuid of each client, by its name: it keeps it where it comes in anew.
        self.guids = collections.defaultdict(new_guid)
        # The opens by their labels; those that are not closed yet, each with its client; what could not be removed.
        self.opens, self.held, self.left = {}, [], []
        # The numbers of a row that is played, and how many directories of scripts were made.
        self.places, self.folders = Places(), 0

    def link(self, client, dialects=()):
        if client not in self.links:
            link, dialect = comes_in(self.server, self.guids[client], dialects or self.dialects)
            self.links[client] = link
            self.came.append(link)
            if not dialects:
                self.dialects = (dialect,)
        return self.links[client]

    def path(self, name):
        """The path in the share of a name in the script's directory; that directory itself where there is no name."""
        return f'{self.at}\\{name}' if name else self.at

    def file_id(self, step):
        return self.opens[step.label]

    def plays(self, step):
        """What is seen of a step, request by request; nothing where its open is not there."""
        if step.needs_open and step.label not in self.opens:
            return []
        if isinstance(step, Comes):
            self.places.comes_in(step, self.link(f'#{step.by}', (step.dialect,)))
            return []
        if isinstance(step, Frame):
            return self.plays_frame(step)
        if isinstance(step, List):
            return [self.lists(step)]
        frame, answer = self.link(step.by).asks(step.command, step.fields(self))
        if answer.status == 0:
            self.keeps_opens(step, answer)
        return [self.seen(step.by, step.command, answer, compared(step, answer), [(frame, answer.frame)])]

    def seen(self, client, command, answer, fields, exchanges, behind=0):
        """What is seen, where so many refusals of its client came behind it."""
        link = self.links[client]
        refused = (self.came.index(link), len(link.refusals) - behind - 1) if answer.status else None
        return Seen(command, answer.status, fields, exchanges, refused)

    def plays_frame(self, step):
        """What is seen of a row's frame, request by request."""
        client = f'#{step.by}'
        link, share = self.links[client], share_path(self.server)
        messages = [self.places.placed(it, link, self.path, share) for it in step.messages]
        frame = framed(joined(messages))
        answers = link.answers_to(frame)
        asked = [it for it in step.messages if command_in(it) != CANCEL]
        found = []
        for i, (message, stored, answer) in enumerate(zip(asked, filter(None, step.stored), answers)):
            self.places.learns(message, stored, answer)
            behind = sum(it.status != 0 for it in answers[i + 1:])
            what = asked_in(message)
            found.append(self.seen(client, what.command, answer, compared(what, answer), [(frame, answer.frame)],
                                   behind))
        return found

    def keeps_opens(self, step, answer):
        """An open that was made has its label, one that was closed none."""
        if step.command == 'CREATE' and 'FileId' in answer.fields:
            self.opens[step.label] = answer.fields['FileId']
            self.held.append((step.by, answer.fields['FileId']))
        if step.command == 'CLOSE':
            self.held.remove((step.by, self.opens.pop(step.label)))

    def lists(self, step):
        """What is seen of a listing: the entries of all answers in one order, and what refused the last query."""
        flags, exchanges, found, largest, status = step.flags, [], [], 0, 0
        while status == 0 and len(exchanges) < (step.most or QUERIES):
            frame, answer = self.link(step.by).asks(step.command, step.fields(self, flags))
            status, flags = answer.status, step.flags & RETURN_SINGLE_ENTRY
            exchanges.append((frame, answer.frame))
            try:
                entries = information.entries(step.number, answer.buffer)
            except frame_tool.Unread as why:
                answer.fields[BROKEN] = str(why)
            if BROKEN in answer.fields:
                return self.seen(step.by, step.command, answer, {BROKEN: answer.fields[BROKEN]}, exchanges[-1:])
            found += [information.entry_text(*it) for it in entries]
            largest = max(largest, len(entries))
        fields = {'number of entries': str(len(found))} if step.most else {ENTRIES: '; '.join(sorted(found))}
        if step.flags & RETURN_SINGLE_ENTRY:
            fields['most entries of an answer'] = str(largest)
        return self.seen(step.by, step.command, answer, fields, exchanges)

    # The directories of a run, and of a script.

    def begins_run(self):
        """Makes a directory at the top of the share, by a name that was free."""
        for _ in range(NAMES):
            name = f'conform-{os.urandom(4).hex()}'
            status = self.makes(name)
            if status != NAME_COLLISION:
                break
        if status:
            raise Refused(f'{self.server.name}: a directory cannot be made in its share: {name_of(status)}')
        self.top = name

    def begins_script(self):
        """Makes the script's directory, in which its names are."""
        self.at, self.opens, self.places = f'{self.top}\\{self.folders}', {}, Places()
        self.folders += 1
        status = self.makes(self.at)
        if status:
            raise Refused(f'{self.server.name}: a directory cannot be made in its share: {name_of(status)}')

    def makes(self, path):
        status, file_id = self.create(path, 'READ_ATTRIBUTES', 'DIRECTORY_FILE', 'CREATE')
        if status == 0:
            self.closes('A', file_id)
        return status

    def ends_script(self):
        """Closes what the script left open, and removes its directory; the clients of a row go."""
        for client in [it for it in self.links if it.startswith('#')]:
            link = self.links.pop(client)
            link.asks('LOGOFF', {})
            link.end()
        self.closes_all()
        self.removes_folder(self.at)

    def closes_all(self):
        for client, file_id in self.held:
            self.closes(client, file_id)
        self.held, self.opens = [], {}

    def ends_run(self):
        """Removes the run's directory, with what is left of scripts, and logs off."""
        self.left = []
        self.closes_all()
        if self.top:
            self.removes_folder(self.top)
            self.top = ''
        for link in self.links.values():
            link.asks('LOGOFF', {})
        self.loses_clients()

    def loses_clients(self):
        """Ends the streams, and with them what is open; the next step comes in anew."""
        for link in self.links.values():
            link.end()
        self.links, self.opens, self.held = {}, {}, []

    # Requests that are not compared.

    def create(self, path, access, options, disposition='OPEN'):
        """The status of a CREATE, and its FileId."""
        answer = whole(self.link('A').asks('CREATE', {
            'DesiredAccess': access, 'ShareAccess': ALL, 'CreateDisposition': disposition, 'CreateOptions': options,
            'Name': path})[1])
        return answer.status, answer.fields.get('FileId')

    def closes(self, client, file_id):
        return self.link(client).asks('CLOSE', {'FileId': file_id})[1].status

    def sets(self, file_id, number, step):
        fields = {'FileInfoClass': number, 'FileId': file_id, 'Buffer': step.data.hex()}
        return self.link('A').asks('SET_INFO', fields)[1].status

    def names_in(self, file_id, flags):
        """Some names of a directory, with the attributes of each; none where there are no more."""
        _, answer = self.link('A').asks('QUERY_DIRECTORY', {
            'FileInformationClass': 1, 'Flags': flags, 'FileId': file_id, 'FileName': '*'})
        try:
            found = information.entries(1, answer.buffer) if answer.status == 0 else []
        except frame_tool.Unread as why:
            raise Fault('it lists what is no entry', str(why)) from None
        return [(name, numbers['FileAttributes']) for name, numbers in found if name not in ('.', '..')]

    def removes_folder(self, path):
        """Removes a directory and all that is in it; what stays is told in the end."""
        status = self.empties(path)
        if status and status not in GONE:
            # It may be READONLY by now.
            self.makes_writable(path, FOLDER)
            status = self.empties(path)
        if status and status not in GONE:
            self.left.append(path)

    def empties(self, path):
        """The status that removing a directory ends with, and all that is in it."""
        status, file_id = self.create(path, 'READ_DATA|DELETE', 'DIRECTORY_FILE')
        if status:
            return status
        known = len(self.left)
        for _ in range(LISTINGS):
            for name, attributes in self.names_in(file_id, RESTART_SCANS):
                self.removes(f'{path}\\{name}', attributes)
            status = self.sets(file_id, DISPOSITION, deletes())
            if status != NOT_EMPTY or len(self.left) > known:
                break
        self.closes('A', file_id)
        return status

    def removes(self, path, attributes):
        """Removes what stands at a path, with these attributes."""
        if attributes & READONLY:
            self.makes_writable(path, FOLDER if attributes & FOLDER else NORMAL)
        if attributes & FOLDER:
            self.removes_folder(path)
            return
        status, file_id = self.create(path, 'DELETE', 'DELETE_ON_CLOSE')
        if status == 0:
            status = self.closes('A', file_id)
        if status:
            self.left.append(path)

    def makes_writable(self, path, attributes):
        """Leaves what stands at a path these attributes alone."""
        status, file_id = self.create(path, 'WRITE_ATTRIBUTES', '0')
        if status == 0:
            self.sets(file_id, BASIC, attributes_are(attributes, 'others'))
            self.closes('A', file_id)


def joined(messages):
    """The payload of a chain."""
    parts = []
    for i, message in enumerate(messages):
        message += bytes(-len(message) % 8) if i + 1 < len(messages) else b''
        step = len(message) if i + 1 < len(messages) else 0
        parts.append(message[:20] + step.to_bytes(4, 'little') + message[24:])
    return b''.join(parts)


def listed(asked, answer):
    """The entries of one answer to QUERY_DIRECTORY, where there was room for all; else which are in it is a matter of
    their order."""
    try:
        entries = information.entries(asked.number, answer.buffer)
    except frame_tool.Unread as why:
        return {BROKEN: str(why)}
    is_all = asked.room >= WHOLE and not asked.flags & RETURN_SINGLE_ENTRY
    return {ENTRIES: '; '.join(sorted(information.entry_text(*it) for it in entries))} if is_all else {}


def compared(step, answer):
    """The fields of an answer in which two servers have to agree, as texts."""
    fields = answer.fields
    if BROKEN in fields:
        return {BROKEN: fields[BROKEN]}
    if step.command == 'QUERY_INFO':
        if answer.status not in (0, OVERFLOW):
            return {}
        return information.information(step.kind, step.number, answer.buffer, answer.status == 0)
    if answer.status:
        return {}
    if step.command == 'QUERY_DIRECTORY':
        return listed(step, answer)
    if step.command == 'READ':
        return {'the bytes': answer.buffer.hex()}
    if step.command == 'WRITE':
        return {'Count': str(fields['Count'])}
    names = ()
    if step.command == 'CREATE':
        names = ('CreateAction', 'EndOfFile', 'FileAttributes')
    elif step.command == 'CLOSE' and step.looks:
        names = ('Flags', 'EndOfFile', 'FileAttributes')
    return {name: frame_tool.told(name, 8, fields[name].to_bytes(8, 'little')) for name in names
            if information.is_compared(name, fields)}
