"""A virtual machine with the daemon in it, and its disk, of which a power cut leaves what was flushed, and of all later writes any part."""

import collections
import contextlib
import glob
import lzma
import os
import re
import shutil
import socket
import subprocess
import threading
import time

import daemons
from scripts import Failure, configuration, write

SECTOR, BLOCK, MEGABYTES, MANY = 512, 4096, 64, 1 << 60
# What a block of ext4's log begins with. The last one has a sum over the block, and where it is torn ext4 isn't mounted (kernel 6.1); its
# head, in block 0, has a sum too.
LOG = b"\xc0\x3b\x39\x98"
# The head of the disk's protocol (NBD, the old handshake): its magic numbers, the length, that it takes flushes, and zeroes; its commands.
HELLO = b"NBDMAGIC" + (0x00420281861253).to_bytes(8, "big") + (MEGABYTES << 20).to_bytes(8, "big") + (5).to_bytes(4, "big") + bytes(124)
READ, WRITE, DISCONNECT, FLUSH = range(4)
# The commands that are wanted.
COMMANDS = ["qemu-system-x86_64", "busybox", "mke2fs", "ldd", "find"]
# The kernel's modules that are wanted, in their order; a kernel has some of them built in.
MODULES = ["crc16", "crc32c_generic", "mbcache", "jbd2", "ext4", "failover", "net_failover", "virtio_ring", "virtio"]
MODULES += ["virtio_pci_legacy_dev", "virtio_pci_modern_dev", "virtio_pci", "virtio_net", "virtio_blk"]
# What the machine does once its kernel runs. The daemon's port is looked for among the sockets that listen.
PORT = 6600
INIT = f"""#!/bin/busybox sh
/bin/busybox --install -s /bin
export PATH=/bin
mount -t devtmpfs none /dev
mount -t proc none /proc
for it in {' '.join(MODULES)}; do [ ! -e /modules/$it.ko ] || insmod /modules/$it.ko; done
ifconfig lo 127.0.0.1
ifconfig eth0 10.0.2.15 netmask 255.255.255.0
mount -t ext4 /dev/vda /disk || poweroff -f
[ -e /disk/journal_a ] || mpd_daemon create /c.toml || poweroff -f
mpd_daemon look /c.toml || poweroff -f
mpd_daemon serve /c.toml &
until grep -q ':{PORT:04X} 00000000:0000 0A' /proc/net/tcp; do kill -0 $! || poweroff -f; usleep 10000; done
echo listens
wait
echo the daemon ended
poweroff -f
"""


def parts(at, piece):
    """Between which a write may be torn: its sectors, and the blocks that ext4 itself wants whole."""
    for place in range(0, len(piece), BLOCK):
        block = piece[place : place + BLOCK]
        step = BLOCK if at + place == 0 or block.startswith(LOG) else SECTOR
        yield from ((at + place + it, block[it : it + step]) for it in range(0, len(block), step))


class Disk:
    """A disk: its bytes, those that a power cut leaves at least, and the writes since the last flush."""

    def __init__(self, folder):
        with open(f"{folder}/disk", "w+b") as file:
            file.truncate(MEGABYTES << 20)
            subprocess.run(["mke2fs", "-q", "-t", "ext4", "-b", str(BLOCK), file.name], check=True)
            self.restore(file.read())
        self.path, self.counts = f"{folder}/disk.socket", collections.Counter()
        self.listener = socket.socket(socket.AF_UNIX)
        self.listener.settimeout(daemons.LIMIT)
        self.listener.bind(self.path)
        self.listener.listen()

    def restore(self, content):
        self.now, self.flushed, self.waiting = bytearray(content), bytearray(content), []
        self.kill_behind(MANY)

    def kill_behind(self, count):
        """The machine is killed behind so many further requests to the disk."""
        self.left = count

    def serve(self, process):
        """Does what one machine asks of it, one request after the other, until that is gone, or is killed behind the last that is left."""
        with contextlib.suppress(OSError), self.listener.accept()[0] as connection, connection.makefile("rb") as requests:
            connection.sendall(HELLO)
            while len(head := requests.read(28)) == 28:
                kind, at, length = (int.from_bytes(head[it:end], "big") for it, end in ((6, 8), (16, 24), (24, 28)))
                content = requests.read(length) if kind == WRITE else b""
                if kind == DISCONNECT or len(content) < length * (kind == WRITE):
                    break
                answer = b"\x67\x44\x66\x98" + bytes(4) + head[8:16] + self.do(kind, at, length, content)
                self.left -= 1
                if self.left < 0:
                    process.kill()
                    process.wait()
                    break
                connection.sendall(answer)

    def do(self, kind, at, length, content):
        """A read finds what was written last; what is written waits for the next flush."""
        self.counts[kind] += 1
        if kind == READ:
            return self.now[at : at + length]
        if kind == WRITE:
            self.now[at : at + length] = content
            self.waiting.append((at, content))
        elif kind == FLUSH:
            for place, piece in self.waiting:
                self.flushed[place : place + len(piece)] = piece
            self.waiting = []
        return b""

    def cut(self, draw):
        """The power is gone: each write that no flush came behind is kept, dropped or torn; at times none is kept."""
        ways = draw.choice([["dropped"], ["kept", "dropped", "torn"], ["kept", "dropped", "torn"], ["torn"]])
        for at, piece in self.waiting:
            way = draw.choice(ways)
            self.counts[way] += 1
            for place, part in parts(at, piece):
                if way == "kept" or way == "torn" and draw.random() < 0.5:
                    self.flushed[place : place + len(part)] = part
        self.restore(self.flushed)


class Machine:
    """A machine: its kernel, its first files, its disk, and further words for qemu. It runs from `boot` until its power is cut."""

    def __init__(self, folder, kernel, disk, words):
        self.kernel, self.disk, self.words, self.start = kernel, disk, words, f"{folder}/start"
        self.port, self.lines, self.process, self.threads = 0, [], None, []

    def boot(self):
        self.port, self.lines = daemons.free_port(), []
        words = ["-m", "256", "-cpu", "max", "-nodefaults", "-no-user-config", "-display", "none", "-no-reboot", "-serial", "stdio"]
        words += ["-kernel", self.kernel, "-initrd", self.start, "-append", "console=ttyS0 quiet no_timer_check cryptomgr.notests panic=-1"]
        words += ["-netdev", f"user,id=net,hostfwd=tcp:127.0.0.1:{self.port}-:{PORT}", "-device", "virtio-net-pci,netdev=net,romfile="]
        words += ["-blockdev", f"driver=nbd,node-name=disk,server.type=unix,server.path={self.disk.path}"]
        words += ["-device", "virtio-blk-pci,drive=disk"]
        how = {"stdin": subprocess.PIPE, "stdout": subprocess.PIPE, "stderr": subprocess.STDOUT}
        self.process = subprocess.Popen(["qemu-system-x86_64", *words, *self.words], **how)
        self.threads = [threading.Thread(target=self.disk.serve, args=[self.process]), threading.Thread(target=self.listen)]
        for it in self.threads:
            it.start()
        return self

    def listen(self):
        """Takes what it writes to its console."""
        for line in self.process.stdout:
            self.lines.append(line.decode(errors="replace").strip())

    def wait(self):
        """Waits until its daemon listens."""
        end = time.monotonic() + 10 * daemons.LIMIT
        while "listens" not in self.lines:
            if self.process.poll() is not None or time.monotonic() > end:
                raise Failure(f"the machine doesn't come to a daemon that listens: {self.lines[-12:]}")
            time.sleep(0.01)
        return self

    def told(self, name):
        """A number that `look` told of the journal when it booted."""
        return int(next(it for it in self.lines if it.startswith(f"{name}: ")).split()[-1])

    def cut(self, draw):
        """Cuts its power; what its disk then has is drawn."""
        self.end()
        self.process.stdin.close()
        self.process.stdout.close()
        self.disk.cut(draw)

    def end(self):
        if self.process:
            self.process.kill()
            self.process.wait()
        for it in self.threads:
            it.join()


def kernel_of(folder):
    """The path of the last kernel below a folder that has its modules there, and that of these."""
    for path in sorted(glob.glob(f"{folder}/boot/vmlinuz-*"), reverse=True):
        modules = f"{folder}/lib/modules/{os.path.basename(path).removeprefix('vmlinuz-')}"
        if os.path.isdir(modules):
            return path, modules
    raise Failure(f"no kernel with modules below {folder}")


def put(content, path):
    write(path, content)
    os.chmod(path, 0o755)


def contents(path):
    with (lzma.open if path.endswith(".xz") else open)(path, "rb") as file:
        return file.read()


def put_all(root, program, modules):
    """A machine's first files, but for the music: busybox, the program with its libraries, and the kernel's modules."""
    put(contents(shutil.which("busybox")), f"{root}/bin/busybox")
    put(contents(program), f"{root}/bin/mpd_daemon")
    for path in re.findall(r"(/\S+) \(0x", subprocess.run(["ldd", program], capture_output=True, text=True, check=True).stdout):
        put(contents(path), root + path)
    for path in glob.glob(f"{modules}/**/*.ko*", recursive=True):
        if (name := os.path.basename(path).split(".")[0]) in MODULES:
            put(contents(path), f"{root}/modules/{name}.ko")
    settings = ["music=/music", "output=/sound", f"tcp=0.0.0.0:{PORT}", *(f"{it}=/disk/{it}" for it in ("journal_a", "journal_b"))]
    put(configuration(settings).encode(), f"{root}/c.toml")
    put(INIT.encode(), f"{root}/init")
    for it in ("proc", "dev", "disk"):
        os.makedirs(f"{root}/{it}")


def machine(folder, program, kernel_folder, words):
    """A machine with a new disk, this program, and the music that stands in `root/music` of the folder."""
    if missing := [it for it in COMMANDS if not shutil.which(it)]:
        raise Failure(f"missing commands: {', '.join(missing)}")
    kernel, modules = kernel_of(kernel_folder)
    put_all(f"{folder}/root", program, modules)
    subprocess.run(f"find . | busybox cpio -o -H newc >'{folder}/start' 2>'{folder}/told'", shell=True, cwd=f"{folder}/root", check=True)
    return Machine(folder, kernel, Disk(folder), words)
