"""Programs that were made elsewhere, as by contrib/cross/build, for the parts of tests/run. Those for another machine are run by an
emulator."""

import os
import sys

import under


class Given:
    """Programs by name. Beside one that is linked statically, PATH, may stand PATH.dynamic, into which a library can be loaded."""

    def __init__(self, paths, emulator, room):
        self.room, self.emulator, self.paths = room, emulator, {}
        for name, path in paths.items():
            if path:
                self.paths[name] = {False: self.runnable(path), True: self.runnable(f"{path}.dynamic")}
        if lacking := [it for it in paths.values() if it and not os.path.isfile(it)]:
            sys.exit(f"{lacking[0]} isn't there")

    def runnable(self, path):
        """What is run in place of this program, or None where it isn't there."""
        if not os.path.isfile(path):
            return None
        machine = under.machine_of(path) or sys.exit(f"{path} is no program")
        if self.emulator is None:
            if not machine.is_here():
                sys.exit(f"{path} is for {machine.name}: say by --under what runs it here")
            return os.path.abspath(path)
        # The libraries that are loaded into the program are for its machine, and the parts know by what it is run.
        os.environ.update({"CC": machine.compiler, under.WORD: self.emulator, under.MACHINE: machine.name})
        return under.wrap(self.emulator, machine, path, f"{self.room}/{os.path.basename(path)}")

    def told(self):
        return [f"{name}{f' by {self.emulator}' if self.emulator else ''}" for name in self.paths]

    def loads(self, part, name):
        return part.loads or name == "test_driver"

    def keeps_out(self, part):
        """Why the part can't be run over these programs, or None."""
        names = part.programs()
        if not names and not part.compiles:
            return "it runs neither the daemon nor the driver"
        if lacking := [it for it in names if it not in self.paths]:
            return f"{' and '.join(lacking)} isn't given"
        if static := [it for it in names if self.loads(part, it) and not self.paths[it][True]]:
            return f"it loads a library into {static[0]}, and there is no such program with the ending .dynamic"
        return part.here_alone if self.emulator and part.here_alone else None

    def path_for(self, part):
        """The path of each program for this part, by name."""
        return lambda name: self.paths[name][self.loads(part, name)]
