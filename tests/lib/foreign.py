"""A Debian of another machine in a folder, whose programs are run by an emulator. Only in there is the emulator known to the system: each
namespace of users has what it registers with binfmt_misc for itself (Linux 6.7 or later), and nothing of this machine changes."""

import os
import shutil
import subprocess
import sys

from clients import wait_for
from scripts import write

# How programs for aarch64 begin, and which of these bits count.
HEAD = r"\x7fELF\x02\x01\x01" + r"\x00" * 9 + r"\x02\x00\xb7\x00"
BITS = r"\xff" * 7 + r"\x00" + r"\xff" * 8 + r"\xfe\xff\xff\xff"
EMULATOR = "qemu-aarch64-static"
ENTER = """
read begun
set -e
mount --make-rprivate /
mount -t binfmt_misc none /proc/sys/fs/binfmt_misc
printf %s ':emulator:M::{head}:{bits}:{emulator}:FP' > /proc/sys/fs/binfmt_misc/register
mount -t proc none "$1/proc"
mount -t tmpfs none "$1/dev"
for it in null zero full random urandom tty console ptmx; do
    : > "$1/dev/$it"
    mount --bind "/dev/$it" "$1/dev/$it"
done
chroot "$@"
exit
"""
SETTINGS = {"PATH": "/usr/sbin:/usr/bin:/sbin:/bin", "HOME": "/root", "LC_ALL": "C", "DEBIAN_FRONTEND": "noninteractive"}
# By this word debootstrap leaves devices out, which no namespace may make.
SETTINGS |= {"container": "lxc"}
SPACES = ["unshare", "--user", "--mount", "--pid", "--fork", "--kill-child"]


class Root:
    """The folder of such a system, made by debootstrap where it isn't there."""

    def __init__(self, path):
        self.path = os.path.abspath(path)
        self.enter = ENTER.format(head=HEAD, bits=BITS, emulator=shutil.which(EMULATOR))
        if lacking := [it for it in (EMULATOR, "debootstrap", "unshare") if not shutil.which(it)]:
            sys.exit(f"{lacking[0]} isn't on the path")
        if not os.path.exists(f"{self.path}/etc/debian_version"):
            words = ["--foreign", "--arch=arm64", "--variant=minbase", "--include=systemd,python3"]
            subprocess.run(["debootstrap", *words, "bookworm", self.path], check=True)
        if os.path.islink(f"{self.path}/proc"):  # So it is left in a container.
            os.remove(f"{self.path}/proc")
            os.mkdir(f"{self.path}/proc")
        if os.path.exists(f"{self.path}/debootstrap"):
            self.run("/debootstrap/debootstrap", "--second-stage", stdout=None)

    def begin(self, *words, **how):
        """Begins a program in there. It ends with what is returned, and so do all that it began."""
        child = subprocess.Popen([*SPACES, "sh", "-c", self.enter, "sh", self.path, *words], stdin=subprocess.PIPE, env=SETTINGS, **how)
        ours = os.readlink("/proc/self/ns/user")
        wait_for("a namespace", lambda: os.readlink(f"/proc/{child.pid}/ns/user") != ours)
        for kind in ("uid", "gid"):
            write(f"/proc/{child.pid}/{kind}_map", "0 0 65536\n")
        child.stdin.write(b"\n")
        child.stdin.close()
        return child

    def run(self, *words, **how):
        """Runs a program in there to its end; what it printed."""
        child = self.begin(*words, **{"stdout": subprocess.PIPE, **how})
        told = child.stdout.read().decode() if child.stdout else ""
        if child.wait():
            raise subprocess.CalledProcessError(child.returncode, words, told)
        return told
