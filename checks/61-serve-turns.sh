# How soon serve listens where its contents are 1 GiB, and that its clients are answered in turns. Both are told by the server's own
# processor time, so that a busy machine changes nothing.
. checks/need.sh
need python3 python3

program=$(tools/built lnbd) || exit 1
dir=$(mktemp -d)
trap 'rm -rf "$dir"' EXIT
python3 - "$program" "$dir/socket" <<'PY'
import os, socket, struct, subprocess, sys, threading, time

program, path = sys.argv[1], sys.argv[2]
SIZE = 1 << 30
STATUSES = 60
ROUNDS = 3


def told(name, holds, why):
    print(f'ok: {name}' if holds else f'failed: {name}: {why}')


def spent(process):
    """Processor seconds of a process."""
    fields = open(f'/proc/{process.pid}/stat').read().rsplit(')', 1)[1].split()
    return (int(fields[11]) + int(fields[12])) / os.sysconf('SC_CLK_TCK')


class Client:
    """A client with structured replies and base:allocation."""

    def __init__(self):
        self.socket = socket.socket(socket.AF_UNIX)
        self.socket.connect(path)
        self.read(18)
        self.socket.sendall(struct.pack('>I', 3))
        self.option(8, b'')
        self.option(10, struct.pack('>III', 0, 1, 15) + b'base:allocation')
        self.option(7, struct.pack('>IH', 0, 0))

    def read(self, count):
        got = bytearray()
        while len(got) < count:
            part = self.socket.recv(count - len(got))
            if not part:
                raise EOFError
            got += part
        return bytes(got)

    # Asks for an option, and takes its replies up to the last.
    def option(self, option, body):
        self.socket.sendall(b'IHAVEOPT' + struct.pack('>II', option, len(body)) + body)
        kind = 0
        while kind != 1:
            _, _, kind, length = struct.unpack('>QIII', self.read(20))
            self.read(length)

    def ask(self, *requests):
        self.socket.sendall(b''.join(struct.pack('>IHHQQI', 0x25609513, 0, kind, cookie, 0, length) for kind, cookie, length in requests))

    def reply(self):
        _, _, _, cookie, length = struct.unpack('>IHHQI', self.read(20))
        return cookie, self.read(length)


# What it takes to fill as much memory at all, and to listen over it, in turn; the least of three, since memory that the host has to give first costs either more.
filled, took = [], []
for _ in range(ROUNDS):
    if took:
        server.kill()
        server.wait()
        os.unlink(path)
    filling = subprocess.run([sys.executable, '-c', f"import resource; b'x' * {SIZE}; r = resource.getrusage(resource.RUSAGE_SELF); print(r.ru_utime + r.ru_stime)"],
                             stdout=subprocess.PIPE, text=True, timeout=120)
    filled.append(float(filling.stdout))
    server = subprocess.Popen([program, 'serve', f'nbd+unix:///?socket={path}', '--size', str(SIZE), '--sessions', '2'], stdout=subprocess.PIPE, text=True)
    line = server.stdout.readline()
    took.append(spent(server))
told('it listens over 1 GiB within 1.2 times the processor time of filling as much memory', line == f'serving {SIZE}\n' and min(took) <= 1.2 * min(filled),
     f'{min(took):.2f} s, where filling takes {min(filled):.2f}, and it printed {line!r}')

# One client asks for sixty block statuses of an export in 131,071 runs, and a second, once the first of them is on its way, for 512 bytes.
one, other = Client(), Client()
one.ask(*((7, cookie, SIZE) for cookie in range(STATUSES)))
start = spent(server)
one.socket.recv(1, socket.MSG_PEEK)
got = []
reader = threading.Thread(target=lambda: got.extend(one.reply() for _ in range(STATUSES)))
asked = spent(server)
other.ask((0, 99, 512))
reader.start()
cookie, data = other.reply()
answered = spent(server)
reader.join(120)
whole = spent(server) - start
first, all_ = answered - asked, [c for c, _ in got]
told('a second client is answered while sixty block statuses of the first are pending', cookie == 99 and len(data) == 520 and first <= whole / 4,
     f'it took {first:.2f} of the {whole:.2f} processor seconds of them all')
told('the sixty are answered in order, and alike', all_ == list(range(STATUSES)) and len({d for _, d in got}) == 1, f'{all_}')
one.ask((2, 0, 0))
other.ask((2, 0, 0))
rest = server.stdout.read()
told('both clients have left', server.wait(60) == 0 and rest == 'sessions 2\n', f'{rest!r}')
PY
