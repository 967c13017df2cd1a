"""A system in C: its files written into a folder, and a run of them on threads."""
import os
import shutil
import subprocess

from sigc.call import running
from sigc.system import system_files
from sigc.system.network import indices

WRITTEN = "Written by sigc-"


def put(network, path, carrier, folder):
    """Writes the files; Refused where one is there that no script wrote: it says so in its first two lines."""
    files = system_files.Files(network, path)
    texts = files.texts(carrier)
    for name in texts:
        if not is_of_scripts(f"{folder}/{name}"):
            raise running.Refused(f"{folder}/{name} is there and was not written by sigc-system")
    os.makedirs(folder, exist_ok=True)
    for name, text in texts.items():
        with open(f"{folder}/{name}", "w", encoding="ascii", newline="\n") as it:
            it.write(text)
    return files


def is_of_scripts(path):
    if not os.path.exists(path):
        return True
    with open(path, encoding="latin-1") as it:
        return WRITTEN in it.readline() + it.readline()


class Run:
    """A run of a system on threads. said is what it says, status what it answers."""

    def __init__(self, network, path, room, flows, limit):
        self.network = network
        files = put(network, path, "threads", f"{room}/c")
        self.build(f"{room}/c")
        names = [name for name, _ in files.inputs]
        with open(f"{room}/c/flows", "wb") as it:
            for source, first in files.first_input.items():
                for name, words in zip(names[first:], flows[source]):
                    it.write(b" ".join([name.encode("ascii"), *words]) + b"\n")
        ran = subprocess.run([f"{room}/c/run", f"{room}/c/flows", "--instants", str(limit)], capture_output=True, stdin=subprocess.DEVNULL)
        self.said, self.status = ran.stderr.decode("latin-1"), ran.returncode
        self.flows = {name: [] for name, _ in files.outputs}
        for line in ran.stdout.split(b"\n")[:-1]:
            name, _, value = line.partition(b" ")
            self.flows[name.decode("ascii")].append(value)
        self.names = {}
        self.find_names()

    def build(self, folder):
        compiler = os.environ.get("CC", "gcc")
        if not shutil.which(compiler):
            raise running.Refused(f"--c wants the compiler {compiler}, which is not there: install it, or leave --c out")
        done = subprocess.run(["sh", f"{folder}/build"], capture_output=True, text=True, stdin=subprocess.DEVNULL)
        if done.returncode:
            raise running.Refused(f"{compiler} does not build the system: {done.stderr.strip()}")

    def find_names(self):
        """The outputs of the system by their sources: C has a flow for each of its names."""
        for port, sources in zip(self.network.system.outputs, self.network.outputs):
            for index, source in zip(indices(port.count), sources):
                name = port.name if index is None else f"{port.name}[{index}]"
                self.names[source] = [f"{name}{it}" for it in system_files.elements(port.sizes)]

    def flow(self, source):
        return [self.flows[it] for it in self.names[source]]
