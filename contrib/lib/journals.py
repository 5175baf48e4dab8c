"""The journal that a configuration names, for start and contrib/install."""

import contextlib
import errno
import fcntl
import os

# The keys of its two files, and their names in the configurations that come with the program.
NAMES = ("journal_a", "journal_b")


class Journal:
    """Two files, by their paths, and the folder in which the program is started."""

    def __init__(self, folder, paths):
        self.folder, self.paths = folder, paths

    def is_there(self):
        """Whether one of the files has bytes: without any there is nothing that `create` could harm."""
        return any(os.path.exists(it) and os.path.getsize(it) for it in self.paths)

    def is_at_home(self):
        """Whether the files stand where they are by default. The drive of any others may be away: a new journal there would be served
        empty, and be hidden once the drive is back."""
        return [os.path.realpath(it) for it in self.paths] == [f"{os.path.realpath(self.folder)}/{it}" for it in NAMES]

    def lack(self, command):
        """What is said of a journal that isn't there, and is made by this command alone."""
        missing = next((f"{it} is missing" for it in self.paths if not os.path.exists(it)), f"{self.paths[0]} is empty")
        return f"{missing}: is its drive there? `{command}` makes a new journal"

    def is_in_use(self):
        """Whether a program has it open: it locks both files. Raises OSError where that can't be told."""
        if not os.path.exists(self.paths[0]):
            return False
        try:
            # Over a network (NFS) only a file that is open for writing can be locked.
            with open(self.paths[0], "r+b") as file:
                fcntl.flock(file, fcntl.LOCK_EX | fcntl.LOCK_NB)
        except BlockingIOError:
            return True
        except OSError as fault:
            # Where the file system knows no locks, nobody can tell.
            if fault.errno not in (errno.EOPNOTSUPP, errno.ENOSYS):
                raise OSError(fault.errno, fault.strerror, self.paths[0]) from None
        return False

    def drop_from_memory(self):
        """Has the system drop what it holds of the files: after a sync that failed the disk may have something else."""
        for path in self.paths:
            with contextlib.suppress(OSError), open(path, "rb") as file:
                os.posix_fadvise(file.fileno(), 0, 0, os.POSIX_FADV_DONTNEED)


def make_pipe(path):
    """Makes a named pipe for its owner alone; the system's fault doesn't name it."""
    try:
        os.mkfifo(path, 0o600)
    except OSError as fault:
        raise OSError(fault.errno, fault.strerror, path) from None
