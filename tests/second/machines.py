"""Machines that are network namespaces, and keepalived in them."""
import contextlib
import ctypes
import os
import signal
import subprocess
import time

# The network: who the clients are, which address moves, and at which port the share is.
CLIENTS_AT, ADDRESS, PORT = '10.77.0.3', '10.77.0.100', 4450
# What has to be at hand, and what of it is asked of the system.
NEEDED, NEW_NETWORK = ('ip', 'keepalived', 'smbclient'), 0x40000000

# Of keepalived: no machine is begun as the master, and the one of the higher priority becomes it.
CONFIG = '''global_defs {{
    router_id {name}
    script_user root
}}
vrrp_instance share {{
    state BACKUP
    interface eth0
    virtual_router_id 77
    priority {priority}
    advert_int 1
    virtual_ipaddress {{
        {address}/24
    }}
    notify_master "{folder}/begins"
    notify_backup "{folder}/ends"
    notify_fault "{folder}/ends"
    notify_stop "{folder}/ends"
}}
'''

# What keepalived calls where its machine has the address: the share is begun, again and again while FILE is another's.
BEGINS = '''#!/bin/sh
while :; do
    {program} serve --listen {address}:{port} --config {config} --login ntlm --journal {journal} 2>>{folder}/said &
    echo $! >{folder}/server
    wait $!
    sleep 0.2
done &
echo $! >{folder}/loop
'''

# And where it has the address no more.
ENDS = '''#!/bin/sh
for one in loop server; do
    kill $(cat {folder}/$one) && rm {folder}/$one
done 2>>{folder}/ended
'''


def ip(*words):
    """Has the system change its networks."""
    subprocess.run(('ip', *words), check=True)


class Machine:
    """A machine with a link of its own, and with a folder for what it says."""

    def __init__(self, folder, network, letter, number):
        self.name, self.folder, self.port = f'{network}{letter}', os.path.join(folder, letter), f'to-{letter}'
        self.clients = f'{network}c'
        os.mkdir(self.folder)
        ip('netns', 'add', self.name)
        ip('-n', self.clients, 'link', 'add', self.port, 'type', 'veth', 'peer', 'name', 'eth0', 'netns', self.name)
        ip('-n', self.clients, 'link', 'set', self.port, 'master', 'bridge', 'up')
        ip('-n', self.name, 'addr', 'add', f'10.77.0.{number}/24', 'dev', 'eth0')
        for link in ('lo', 'eth0'):
            ip('-n', self.name, 'link', 'set', link, 'up')

    def writes(self, file, text, rights=0o755, **fields):
        """Makes a file of the machine, and gives its name."""
        path = os.path.join(self.folder, file)
        with open(os.open(path, os.O_CREAT | os.O_WRONLY, rights), 'w', encoding='ascii') as it:
            it.write(text.format(folder=self.folder, address=ADDRESS, **fields))
        return path

    def begins(self, program, config, file, priority):
        """Begins keepalived, which begins the share where the machine has the address."""
        self.writes('begins', BEGINS, program=program.path, port=PORT, config=config, journal=file)
        self.writes('ends', ENDS)
        words = self.writes('config', CONFIG, 0o644, name=self.name, priority=priority)
        pids = ('-p', f'{self.folder}/keepalived', '-r', f'{self.folder}/vrrp')
        how = ('--dont-fork', '--vrrp', '--log-console')
        with open(os.path.join(self.folder, 'log'), 'wb') as log:
            self.runs('keepalived', *how, '-f', words, *pids, stdout=log, stderr=log)

    def runs(self, *words, **how):
        """Begins a process on the machine."""
        return subprocess.Popen(('ip', 'netns', 'exec', self.name, *words), stdin=subprocess.DEVNULL, **how)

    def said(self, name='said'):
        """What its servers said."""
        path = os.path.join(self.folder, name)
        return open(path, encoding='utf-8').read() if os.path.exists(path) else ''

    def has_address(self):
        """Whether it has the address that moves."""
        words = ('ip', '-n', self.name, '-4', '-o', 'addr', 'show', 'to', ADDRESS)
        return subprocess.run(words, check=True, stdout=subprocess.PIPE).stdout != b''

    def is_cut_off(self):
        """Nobody hears it any more, and it does not know."""
        ip('-n', self.clients, 'link', 'set', self.port, 'nomaster')

    def signals(self, number):
        """Sends a signal to all that runs on it."""
        pids = subprocess.run(('ip', 'netns', 'pids', self.name), check=True, stdout=subprocess.PIPE).stdout.split()
        for pid in map(int, pids):
            with contextlib.suppress(ProcessLookupError):
                os.kill(pid, number)

    def dies(self):
        """All that runs on it stops, its link too, so that nobody is told; and then it is ended."""
        self.signals(signal.SIGSTOP)
        ip('-n', self.name, 'link', 'set', 'eth0', 'down')
        self.signals(signal.SIGKILL)


def enters(name):
    """This thread is in another network from here on, as are threads and processes that it begins."""
    file = os.open(name, os.O_RDONLY)
    if ctypes.CDLL(None, use_errno=True).setns(file, NEW_NETWORK) != 0:
        raise OSError(ctypes.get_errno(), name)
    os.close(file)


@contextlib.contextmanager
def two_machines(folder):
    """Two machines, and this process in a third one, where clients are; all of them are gone behind it."""
    network, own = f'second{os.getpid()}', f'/proc/{os.getpid()}/ns/net'
    before, machines = os.open(own, os.O_RDONLY), []
    try:
        ip('netns', 'add', f'{network}c')
        ip('-n', f'{network}c', 'link', 'add', 'bridge', 'type', 'bridge', 'mcast_snooping', '0')
        ip('-n', f'{network}c', 'addr', 'add', f'{CLIENTS_AT}/24', 'dev', 'bridge')
        ip('-n', f'{network}c', 'link', 'set', 'bridge', 'up')
        for number, letter in enumerate('ab', 1):
            machines.append(Machine(folder, network, letter, number))
        enters(f'/run/netns/{network}c')
        yield machines
    finally:
        enters(f'/proc/self/fd/{before}')
        for machine in machines:
            machine.dies()
        time.sleep(0.2)
        for letter in 'abc':
            subprocess.run(('ip', 'netns', 'del', f'{network}{letter}'), check=False, stderr=subprocess.DEVNULL)
        os.close(before)
