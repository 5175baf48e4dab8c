"""What an installation is made of, for contrib/install and contrib/deb: which file stands where, with which mode."""

import contextlib
import dataclasses
import hashlib
import json
import os
import re
import socket
import subprocess

CONTRIB = os.path.dirname(os.path.dirname(os.path.abspath(__file__)))
NAME = "mpd_daemon"
# The port of the protocol, by which clients look for a player.
PORT = 6600
# The program of the first words of a unit's command.
COMMAND = re.compile(r"^ExecStart=(\S+)", re.MULTILINE)
# A variable that a unit sets, and its value.
VARIABLE = re.compile(r"^Environment=(\w+)=(\S+)$", re.MULTILINE)
# The Python for which Debian's packages are.
PYTHON = "/usr/bin/python3"
# The line of a configuration that names the decoder's socket.
DECODER = re.compile(r"^(# )?decoder = ", re.MULTILINE)


def free_port():
    """The first port from PORT on that is free on the loopback."""
    for port in range(PORT, PORT + 100):
        with socket.socket() as probe, contextlib.suppress(OSError):
            probe.setsockopt(socket.SOL_SOCKET, socket.SO_REUSEADDR, 1)
            probe.bind(("127.0.0.1", port))
            return port
    return PORT


@dataclasses.dataclass
class File:
    """A file of an installation. One that is renewed gives way to a later build's; any other stays as it is once it is there."""

    path: str
    content: bytes
    mode: int = 0o644
    is_renewed: bool = False


def content(path):
    with open(path, "rb") as file:
        return file.read()


def sum_of(data):
    return hashlib.sha256(data).hexdigest()


def text(name):
    """A text of contrib/."""
    return content(f"{CONTRIB}/{name}").decode()


def is_there(name):
    return os.path.exists(f"{CONTRIB}/{name}")


def environment():
    """This process's environment with what the daemon's unit sets."""
    return os.environ | dict(VARIABLE.findall(text(f"{NAME}.service")))


def has_sound():
    """Whether there is what brings the sound to a sound card, and its unit."""
    return is_there("sound") and is_there(f"{NAME}_sound.service")


def has_decoder():
    """Whether there is what decodes other music than WAVE and FLAC, its unit, and a configuration that knows of it."""
    return is_there("decoder/decoder") and is_there(f"{NAME}_decoder.service") and DECODER.search(text(f"{NAME}.toml")) is not None


def lack_of_decoder():
    """What the decoder lacks on this machine; None where nothing is missing."""
    with contextlib.suppress(OSError):
        if subprocess.run([PYTHON, "-c", "import av, mutagen"], capture_output=True, check=False).returncode == 0:
            return None
    return "python3-av and python3-mutagen (Debian's packages), by which other files than WAVE and FLAC are played"


def decoder_files(folder):
    """The files of the decoder, below this folder."""
    files = [File(f"{folder}/decoder", text("decoder/decoder").encode(), 0o755, True)]
    return files + [File(f"{folder}/{it}.py", text(f"decoder/{it}.py").encode(), is_renewed=True) for it in ("ahead", "samples", "tags")]


def program_files(path, program):
    """The program at this path, and beside it what `--version` tells of its build, as it stands beside the one that is given."""
    noted = f"{os.path.realpath(program)}.build"
    note = content(noted) if os.path.exists(noted) else b"nothing was noted of its build\n"
    return [File(path, content(program), 0o755, True), File(f"{path}.build", note, is_renewed=True)]


def command(unit, home):
    """The path of the program that a user's unit starts."""
    return COMMAND.search(unit)[1].replace("%h", home)


def configuration(settings):
    """The configuration for the units, with these settings in place of its own, and a key of its own."""
    made = text(f"{NAME}.toml")
    for key, value in {"key": os.urandom(32).hex(), **settings}.items():
        line = f"{key} = {json.dumps(value, ensure_ascii=False)}"
        made, count = re.subn(rf"^(?:# )?{key} = .*$", lambda _: line, made, flags=re.MULTILINE)
        if count != 1:
            raise ValueError(f"contrib/{NAME}.toml has {count} lines of `{key}`")
    return made


def for_user(home, units, program, settings):
    """The files of a user's installation, the configuration first."""
    unit = text(f"{NAME}.service")
    if has_decoder():
        settings = {"decoder": "decoder.socket", **settings}
    files = [
        File(f"{home}/.local/share/{NAME}/{NAME}.toml", configuration(settings).encode(), 0o600),
        *program_files(command(unit, home), program),
        File(f"{home}/.local/share/man/man1/{NAME}.1", text(f"{NAME}.1").encode(), is_renewed=True),
        File(f"{units}/{NAME}.service", unit.encode()),
    ]
    if has_sound():
        unit = text(f"{NAME}_sound.service")
        files.append(File(command(unit, home), text("sound").encode(), 0o755, True))
        files.append(File(f"{units}/{NAME}_sound.service", unit.encode()))
    if has_decoder():
        unit = text(f"{NAME}_decoder.service")
        files += decoder_files(os.path.dirname(command(unit, home)))
        files.append(File(f"{units}/{NAME}_decoder.service", unit.encode()))
    return files


@dataclasses.dataclass
class Folders:
    """Where the parts of a machine's installation stand."""

    programs: str
    library: str
    units: str
    users: str
    manual: str


BY_HAND = Folders("/usr/local/bin", f"/usr/local/lib/{NAME}", "/etc/systemd/system", "/etc/sysusers.d", "/usr/local/share/man/man1")
PACKAGED = Folders("/usr/bin", f"/usr/lib/{NAME}", "/usr/lib/systemd/system", "/usr/lib/sysusers.d", "/usr/share/man/man1")


def for_machine(folders, program):
    """The files of a machine's installation but for its configuration."""

    def unit(name):
        path = f"{folders.units}/{name}"
        told = text(f"system/{name}").replace(f"/usr/bin/{NAME}", f"{folders.programs}/{NAME}")
        return File(path, told.replace(f"/usr/lib/{NAME}/", f"{folders.library}/").encode())

    files = [
        *program_files(f"{folders.programs}/{NAME}", program),
        File(f"{folders.manual}/{NAME}.1", text(f"{NAME}.1").encode(), is_renewed=True),
        File(f"{folders.users}/{NAME}.conf", text("system/sysusers.conf").encode()),
        unit(f"{NAME}.service"),
    ]
    if has_sound():
        files += [
            File(f"{folders.programs}/{NAME}_sound", text("sound").encode(), 0o755, True),
            File(f"{folders.manual}/{NAME}_sound.1", f".so man1/{NAME}.1\n".encode(), is_renewed=True),
            unit(f"{NAME}_sound.service"),
        ]
    if has_decoder():
        files += [*decoder_files(folders.library), unit(f"{NAME}_decoder.service")]
    return files


def machine_settings(settings):
    """What a machine's configuration has in place of a user's."""
    decoder = {"decoder": f"/run/{NAME}_decoder/socket"} if has_decoder() else {}
    return {"unix": f"/run/{NAME}/socket", **decoder, **settings}
