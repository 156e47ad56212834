"""The servers whose speed is measured over connections of this machine: bridge, a model of it in C (`server.c`) and rsyslog; the files that
they are given; and receivers that keep nothing (`receiver.c`).

Python imports it as a module; it measures nothing by itself.
"""
import os
import pathlib
import shutil
import socket
import subprocess
import sys
import threading
import time

import senders

MEBIBYTE = 1 << 20
SLOTS, SLOT = 16, 128 * MEBIBYTE
SPOOL = 12288 + SLOTS * SLOT
LOOP = 512 * MEBIBYTE

# How a file is: in memory, and written before; written before, and not in memory; or one of holes, of which nothing was written.
HOT, COLD, NEW = "hot", "cold", "new"


def free_port():
    with socket.socket() as one:
        one.bind(("127.0.0.1", 0))
        return one.getsockname()[1]


def listens(port):
    """Whether somebody listens at the port, by the system's table: a try would be a talk."""
    with open("/proc/net/tcp", encoding="ascii") as table:
        return any(line.split()[1].endswith(f":{port:04X}") and line.split()[3] == "0A" for line in list(table)[1:])


def wait_for(ports):
    limit = time.monotonic() + 30
    while not all(listens(port) for port in ports):
        if time.monotonic() > limit:
            sys.exit(f"{sys.argv[0]}: nobody listens")
        time.sleep(0.02)


def write_through(path, size):
    """Makes a file of this length, each block of it written."""
    with open(path, "wb") as file:
        for _ in range(0, size, MEBIBYTE):
            file.write(bytes(MEBIBYTE))
        file.truncate(size)
        file.flush()
        os.fsync(file.fileno())


def sparse(path, size):
    """Makes a file of this length, of which nothing is written."""
    with open(path, "wb") as file:
        file.truncate(size)


def forget(path):
    """Has the system forget what it keeps of the file in memory, all of which is on the disk."""
    file = os.open(path, os.O_RDWR)
    os.fsync(file)
    os.posix_fadvise(file, 0, 0, os.POSIX_FADV_DONTNEED)
    os.close(file)


def memory_of(process, what):
    """The memory of a process in MiB: `VmRSS` is what it has now, `VmHWM` the most that it had. None once it ended."""
    try:
        with open(f"/proc/{process}/status", encoding="ascii") as status:
            sizes = dict(line.split(":", 1) for line in status)
        return int(sizes[what].split()[0]) / 1024
    except (OSError, KeyError):
        return None


class Process:
    """A server's process, and how many syncs it made."""

    def __init__(self, name, words, syncs, **how):
        self.name, self.counted, self.syncs = name, name, syncs
        environment = syncs.environment(name) if syncs else None
        nothing = {"stdin": subprocess.DEVNULL, "stdout": subprocess.DEVNULL, "stderr": subprocess.DEVNULL}
        self.child = subprocess.Popen(words, env=environment, **{**nothing, **how})

    def processor(self):
        """The seconds of processor time so far."""
        with open(f"/proc/{self.child.pid}/stat", encoding="ascii") as stat:
            fields = stat.read().rsplit(")", 1)[1].split()
        return (int(fields[11]) + int(fields[12])) / os.sysconf("SC_CLK_TCK")

    def memory(self):
        """The memory that it has now, in MiB."""
        return memory_of(self.child.pid, "VmRSS")

    def syncs_made(self):
        return self.syncs.count(self.counted)

    def __enter__(self):
        return self

    def __exit__(self, *_):
        self.child.kill()
        self.child.wait()


class Server(Process):
    """bridge over a new spool in a file that was written through, with 16 workers at each place, and with these words too; or in one
    that isn't in memory, or was never written."""

    def __init__(self, bridge, folder, name="serve", manner=(), syncs=None, state=HOT):
        self.bridge, self.spool = bridge, f"{folder}/{name}"
        if state == NEW:
            self.spool += ", new"
            sparse(self.spool, SPOOL)
        subprocess.run([bridge, self.spool, "format", str(SLOTS), str(SLOT)], check=True, stdout=subprocess.DEVNULL)
        self.ports = {protocol: free_port() for protocol in ("relp", "lumberjack", "hec")}
        places = [word for protocol, port in self.ports.items() for word in (f"--{protocol}", f"127.0.0.1:{port}")]
        tokens = ["--token", senders.TOKEN, "--ack-token", senders.ACK_TOKEN]
        super().__init__(name, [bridge, self.spool, "serve", *places, "--workers", "16", *tokens, *manner], syncs)
        wait_for(self.ports.values())
        self.ports["ids"] = self.ports["hec"]
        if state == COLD:
            forget(self.spool)

    def events(self):
        """How many events it stored, once it was killed."""
        with subprocess.Popen([self.bridge, self.spool, "list"], stdout=subprocess.PIPE) as lines:
            return sum(piece.count(b"\n") for piece in iter(lambda: lines.stdout.read(1 << 20), b""))


class Model(Process):
    """The server in C of the same calls, over a file of its own; `manner` is one of its manners, single or group."""

    def __init__(self, program, folder, name, manner, length, syncs=None, state=HOT):
        self.path, self.state = f"{folder}/{name}", state
        if state == NEW:
            sparse(self.path, SPOOL)
        elif state == COLD or not os.path.exists(self.path):
            write_through(self.path, SPOOL if state == COLD else LOOP)
        super().__init__(name, [program, self.path, str(length), manner], syncs, stdout=subprocess.PIPE)
        self.ports = dict(zip(("relp", "lumberjack", "hec"), map(int, self.child.stdout.readline().split())))
        if state == COLD:
            forget(self.path)

    def __exit__(self, *_):
        super().__exit__()
        self.child.stdout.close()
        if self.state != HOT:
            os.remove(self.path)


def build(folder, name):
    """Builds `server` or `receiver` in the folder, and gives its path."""
    subprocess.run(["gcc", "-O2", "-Wall", "-pthread", "-o", f"{folder}/{name}", senders.source(f"{name}.c")], check=True)
    return f"{folder}/{name}"


class Receiver(Process):
    """A receiver that keeps nothing, of so many connections, and how many frames, windows or requests came, in how many reads, of those
    connections that ended."""

    def __init__(self, program, protocol, connections=1):
        super().__init__(f"receiver of {protocol}", [program, protocol, str(connections)], None, stdout=subprocess.PIPE, text=True)
        self.port, self.reads, self.came = int(self.child.stdout.readline()), 0, 0
        self.listener = threading.Thread(target=self.listen)
        self.listener.start()

    def listen(self):
        for line in self.child.stdout:
            reads, came = map(int, line.split())
            self.reads, self.came = self.reads + reads, self.came + came

    def over(self):
        """Waits until its connections have ended."""
        self.listener.join()

    def __exit__(self, *_):
        super().__exit__()
        self.listener.join()
        self.child.stdout.close()


def has_rsyslog():
    os.environ["PATH"] += ":/usr/sbin:/sbin"
    library = pathlib.Path("/usr/lib")
    return shutil.which("rsyslogd") and all(any(library.glob(f"**/{name}.so")) for name in ("imrelp", "omrelp", "imfile"))


class Rsyslog(Process):
    """A real rsyslog with these lines of configuration, and its own folder."""

    def __init__(self, folder, name, text, syncs=None):
        work = f"{folder}/{name}"
        os.mkdir(work)
        pathlib.Path(f"{work}/conf").write_text(f'global(workDirectory="{work}")\n{text}', encoding="ascii")
        super().__init__(name, ["rsyslogd", "-n", "-f", f"{work}/conf", "-i", f"{work}/id"], syncs)


# What its queue is, and what its action is told beside: in the two manners in which what rsyslog acknowledged survives a kill, and in the
# usual one, in which it doesn't.
QUEUE = """main_queue(queue.type="Disk" queue.filename="main" queue.spoolDirectory="{work}" queue.syncQueueFiles="on"
    queue.checkpointInterval="1" queue.maxDiskSpace="4g" queue.size="10000000")
"""
MANNERS = {
    "rsyslog, a synced disk queue": (QUEUE, ""),
    "rsyslog, a synced file": ('main_queue(queue.type="Direct")\n', 'sync="on"'),
    "rsyslog, a queue in memory": ('main_queue(queue.type="LinkedList" queue.size="1000000")\n', ""),
}


class Collector(Rsyslog):
    """A real rsyslog with imrelp, and a file in which it collects."""

    def __init__(self, folder, name, manner, syncs):
        queue, told = manner
        work, port = f"{folder}/{name.replace(' ', '-').replace(',', '')}", free_port()
        self.ports = {"relp": port}
        super().__init__(folder, os.path.basename(work), queue.format(work=work) + f"""module(load="imrelp")
input(type="imrelp" port="{port}" address="127.0.0.1")
template(name="whole" type="string" string="%rawmsg%\\n")
action(type="omfile" file="{work}/collected" template="whole" {told})
""", syncs)
        self.name = name
        wait_for([port])
