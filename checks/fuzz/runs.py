"""One run of the program over servers of the fuzzer: what is sent to it and when, what it printed, and what it took."""

import os
import selectors
import signal
import socket
import struct
import tempfile
import time

# Where the program sleeps, and nothing has happened for PATIENCE seconds, what was held back goes out, or the connections end. No run may take longer than LONGEST.
PATIENCE, LONGEST = 0.002, 20.0
MOST_MEMORY = 200 * 1024


class Ran:
    """How a run ended. `status` is below 0 for a signal."""

    def __init__(self, status, out, err, memory, seconds):
        self.status, self.out, self.err, self.memory, self.seconds = status, out, err, memory, seconds


class Host:
    """Where clients come in: a listening socket, and a function that makes a connection's state for each."""

    def __init__(self, listener):
        self.listener, self.make = listener, None
        listener.setblocking(False)

    def drain(self):
        """Drops who came to the run before."""
        while True:
            try:
                self.listener.accept()[0].close()
            except BlockingIOError:
                return


def unix_host(path):
    listener = socket.socket(socket.AF_UNIX)
    listener.bind(path)
    listener.listen(64)
    return Host(listener)


def tcp_host():
    listener = socket.socket()
    listener.bind(("127.0.0.1", 0))
    listener.listen(64)
    return Host(listener)


def reset(link):
    """Closes it so that the other side sees a reset, where its family has them."""
    if link.family == socket.AF_INET:
        link.setsockopt(socket.SOL_SOCKET, socket.SO_LINGER, struct.pack("ii", 1, 0))
    link.close()


class Run:
    """A run that goes on."""

    def __init__(self, program, words, script, hosts, patient):
        self.hosts, self.patient = hosts, patient
        self.links, self.connections = {}, []
        self.waits = selectors.DefaultSelector()
        for host in hosts:
            host.drain()
            self.waits.register(host.listener, selectors.EVENT_READ, host)
        self.files = [tempfile.TemporaryFile(dir="/dev/shm") for _ in range(3)]
        self.files[0].write(script)
        self.files[0].seek(0)
        actions = [(os.POSIX_SPAWN_DUP2, file.fileno(), number) for number, file in enumerate(self.files)]
        self.began = time.monotonic()
        self.child = os.posix_spawn(program, [program, *words], {"PATH": "/usr/bin:/bin"}, file_actions=actions, setsigdef=[signal.SIGPIPE])
        self.ended = os.pidfd_open(self.child)
        self.waits.register(self.ended, selectors.EVENT_READ, None)

    def result(self):
        """Serves until the program has ended."""
        going = True
        while going:
            # (who is slow on purpose sends one part, and comes back)
            waiting = any(link.queue and link.queue[0] not in ("pause",) for link in self.links.values())
            events = self.waits.select(PATIENCE if not waiting else 0.01)
            if time.monotonic() - self.began > LONGEST:
                os.kill(self.child, signal.SIGKILL)
            if not events and self.sleeps():
                self.silent()
            for key, _ in events:
                if key.data is None:
                    going = False
                elif isinstance(key.data, Host):
                    self.accept(key.data)
                elif key.fileobj in self.links:
                    self.move(key.fileobj)
        return self.finish()

    def finish(self):
        _, status, used = os.wait4(self.child, 0)
        seconds = time.monotonic() - self.began
        os.close(self.ended)
        for link in list(self.links):
            link.close()
        self.waits.close()
        texts = []
        for file in self.files[1:]:
            file.seek(0)
            texts.append(file.read())
        for file in self.files:
            file.close()
        return Ran(os.waitstatus_to_exitcode(status), *texts, used.ru_maxrss, seconds)

    def accept(self, host):
        try:
            link, _ = host.listener.accept()
        except BlockingIOError:
            return
        link.setblocking(False)
        if link.family == socket.AF_INET:
            link.setsockopt(socket.IPPROTO_TCP, socket.TCP_NODELAY, 1)
        connection = host.make()
        self.links[link] = connection
        self.connections.append(connection)
        self.waits.register(link, selectors.EVENT_READ | selectors.EVENT_WRITE, host.make)

    def watch(self, link):
        queue = self.links[link].queue
        events = selectors.EVENT_READ | (selectors.EVENT_WRITE if queue and queue[0] != "pause" else 0)
        self.waits.modify(link, events, True)

    def drop(self, link, how):
        self.waits.unregister(link)
        del self.links[link]
        reset(link) if how == "reset" else link.close()

    def move(self, link):
        """One read and one send, where there is something to do."""
        connection = self.links[link]
        try:
            data = link.recv(1 << 18)
            if not data:
                self.drop(link, "close")
                return
            connection.feed(data)
        except BlockingIOError:
            pass
        except OSError:
            self.drop(link, "close")
            return
        self.send(link, connection)
        if link in self.links:
            self.watch(link)

    def send(self, link, connection):
        queue = connection.queue
        while queue and queue[0] == "began":
            queue.popleft()
            connection.began = len(connection.sent)
        if not queue or queue[0] == "pause":
            return
        part = queue.popleft()
        if part in ("close", "reset"):
            self.drop(link, part)
            return
        # (what is sent byte by byte is not joined)
        while 1 < len(part) < 1 << 18 and queue and isinstance(queue[0], bytes) and len(queue[0]) > 1:
            part += queue.popleft()
        try:
            count = link.send(part)
        except BlockingIOError:
            count = 0
        except OSError:
            self.drop(link, "close")
            return
        connection.sent += part[:count]
        if count < len(part):
            queue.appendleft(part[count:])

    def sleeps(self):
        """Whether the program waits for something: a busy machine may just not have let it go on."""
        try:
            with open(f"/proc/{self.child}/stat", "rb") as stat:
                return stat.read().rpartition(b") ")[2][:1] == b"S"
        except OSError:
            return False

    def silent(self):
        """Nothing happened for a while: what was held back goes out, and where nothing was, the connections end."""
        went_on = False
        for link, connection in list(self.links.items()):
            if connection.queue and connection.queue[0] == "pause":
                connection.queue.popleft()
                went_on = True
            elif connection.held:
                connection.queue.extend(connection.held)
                connection.held = []
                went_on = True
            if connection.unanswered and not connection.queue:
                connection.export.reorders = False
                pending, connection.unanswered = connection.unanswered, []
                for command in pending:
                    connection.respond(*command)
                went_on = True
            if link in self.links:
                self.watch(link)
        if not went_on and not self.patient:
            for link in list(self.links):
                self.drop(link, "close")
