"""A share with a status, and what is asked there."""
import http.client
import json
import re
import socket

from tests.smb.client import ALL_ACCESS
from tests.smb.frames import write
from tests.smb.kept import Looking
from tests.smb.program import GUEST
from tests.smb.working import CREATE

# Within how many seconds who asks is answered.
SOON = 30


class Watched:
    """A share with a status at an IP address, by its port."""

    def __init__(self, program, *words, config=GUEST, address='127.0.0.1'):
        self.address = address
        self.share = program.serve('--config', config, '--status', f'{address}:0', *words)

    def __enter__(self):
        line = self.share.process.stderr.readline().decode()
        found = re.fullmatch(rf'status at http://{re.escape(self.address)}:(\d+)/\n', line)
        if found is None:
            self.share.__exit__()
            raise AssertionError(f'it says {line!r}')
        self.port = int(found[1])
        return self

    def __exit__(self, *words):
        self.share.__exit__(*words)

    def get(self, path, method='GET', **fields):
        """The status, the fields and the body of an answer."""
        asked = http.client.HTTPConnection('127.0.0.1', self.port, timeout=SOON)
        asked.request(method, path, headers=fields)
        answer = asked.getresponse()
        return answer.status, answer.headers, answer.read().decode()

    def json(self):
        status, _, body = self.get('/status.json')
        return json.loads(body) if status == 200 else {}

    def raw(self, data):
        """What is answered to bytes, up to the end."""
        with socket.create_connection((self.address.strip('[]'), self.port), SOON) as asked:
            answer = b''
            try:
                asked.sendall(data)
                while part := asked.recv(65_536):
                    answer += part
            except ConnectionError:
                pass
            return answer


def works(share, name):
    """A client with a file that is open and has bytes; it is gone once nobody has it."""
    client = Looking(share).comes_in()
    number = client.opens(name, ALL_ACCESS, CREATE)
    client.asks(write(client.next_id(), number, 0, b'x' * 5_000, client.session, 1), 0, None)
    return client


def metrics_of(body):
    """The values by name and labels; each name has its HELP and TYPE before."""
    found, known = {}, set()
    for line in body.splitlines():
        if line.startswith('# '):
            known.add(line.split()[2])
        else:
            name, _, value = line.rpartition(' ')
            if name.partition('{')[0] not in known:
                raise AssertionError(f'{line!r} has no HELP and TYPE')
            found[name] = float(value)
    return found
