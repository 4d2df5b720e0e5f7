"""Machines that a test makes of this one: network namespaces with a sshd in each, which links lead to, and a release installed in each."""
import contextlib
import os
import pathlib
import subprocess
import sys
import tempfile

from console_sitting import TOP, holds

LINK = TOP / "tests/elsewhere_link.py"

SSHD = """\
Port 22
ListenAddress 0.0.0.0
HostKey {room}/host_key
AuthorizedKeysFile {room}/key.pub
PidFile {room}/{name}.pid
PermitRootLogin prohibit-password
PasswordAuthentication no
UsePAM no
StrictModes no
LogLevel ERROR
SetEnv PATH={room}/{name}/bin:/usr/bin:/bin
"""

SSH = """\
Host {name}
  HostName {address}
  User {user}
  IdentityFile {room}/key
  IdentitiesOnly yes
  UserKnownHostsFile {room}/known
  StrictHostKeyChecking yes
  Compression {compression}
"""


def run(*words):
    subprocess.run(words, check=True, stdout=subprocess.DEVNULL)


class Machine:
    """A network namespace with a sshd, and the link to it; a release is installed there, so that its `pair` is on the PATH of that sshd."""

    def __init__(self, name, number, room, release):
        self.name, self.room, self.space, self.release = name, room, f"pair-{os.getpid()}-{name}", release
        self.here, self.there = f"p{os.getpid() % 100000}{name[0]}0", f"p{os.getpid() % 100000}{name[0]}1"
        self.near, self.address = f"10.213.{number}.1", f"10.213.{number}.2"
        self.link = self.sshd = None

    def __enter__(self):
        run("ip", "netns", "add", self.space)
        pipes = {"stdin": subprocess.PIPE, "stdout": subprocess.PIPE}
        self.link = subprocess.Popen([sys.executable, LINK, self.here, self.there], text=True, bufsize=1, **pipes)
        self.link.stdout.readline()
        run("ip", "link", "set", self.there, "netns", self.space)
        run("ip", "addr", "add", f"{self.near}/24", "dev", self.here)
        run("ip", "link", "set", self.here, "up")
        for words in (["addr", "add", f"{self.address}/24", "dev", self.there], ["link", "set", self.there, "up"], ["link", "set", "lo", "up"]):
            run("ip", "-n", self.space, *words)
        run("make", "-s", "-C", self.release, "install", f"PREFIX={self.room / self.name}")
        (self.room / f"{self.name}.sshd").write_text(SSHD.format(room=self.room, name=self.name))
        self.sshd = subprocess.Popen(["ip", "netns", "exec", self.space, "/usr/sbin/sshd", "-D", "-e", "-f", self.room / f"{self.name}.sshd"])
        return self

    def __exit__(self, *_):
        for it in self.processes():
            with contextlib.suppress(OSError):
                os.kill(it, 9)
        self.sshd.wait()
        self.link.stdin.close()
        self.link.wait()
        run("ip", "netns", "del", self.space)

    def be(self, line):
        """Its link is so from now on."""
        self.link.stdin.write(f"{line}\n")
        self.link.stdout.readline()

    def cable(self, state):
        """Its device is up or down."""
        run("ip", "-n", self.space, "link", "set", self.there, state)

    def processes(self):
        """All processes there."""
        return [int(it) for it in subprocess.run(["ip", "netns", "pids", self.space], capture_output=True, text=True).stdout.split()]

    def named(self, *words):
        """The processes there whose command line has all of these words."""
        found = []
        for it in self.processes():
            with contextlib.suppress(OSError):
                line = pathlib.Path(f"/proc/{it}/cmdline").read_bytes().replace(b"\0", b" ").decode(errors="replace")
                if all(word in line for word in words):
                    found.append(it)
        return found

    def hosts(self):
        """The processes of hosts there: the program that is installed there itself, and no shell before it."""
        program = os.path.realpath(self.room / self.name / "lib/pair/lib/pair_main")
        return [it for it in self.named("host --role") if os.path.realpath(f"/proc/{it}/exe") == program]

    def sessions(self):
        """The processes of sshd that serve a connection."""
        return [it for it in self.named("sshd:") if "listener" not in pathlib.Path(f"/proc/{it}/cmdline").read_text()]


@contextlib.contextmanager
def machines(*names, release, compression="no"):
    """Machines that ssh reaches by these names, with keys and a configuration of their own, in which a release is installed from its
    folder; and the folder of ssh, first on the PATH."""
    before = os.environ["PATH"]
    with tempfile.TemporaryDirectory() as path, contextlib.ExitStack() as stack:
        room = pathlib.Path(path)
        for it in ("key", "host_key"):
            run("ssh-keygen", "-q", "-t", "ed25519", "-N", "", "-f", room / it)
        os.makedirs("/run/sshd", exist_ok=True)
        made = [stack.enter_context(Machine(name, number, room, release)) for number, name in enumerate(names, 1)]
        key = " ".join((room / "host_key.pub").read_text().split()[:2])
        (room / "known").write_text("".join(f"{it.address} {key}\n" for it in made))
        blocks = [SSH.format(name=it.name, address=it.address, room=room, user="root", compression=compression) for it in made]
        (room / "config").write_text("".join(blocks))
        (room / "ssh").write_text(f'#!/bin/sh\nexec /usr/bin/ssh -F "{room}/config" "$@"\n')
        (room / "ssh").chmod(0o755)
        os.environ["PATH"] = f"{room}:{before}"
        try:
            for it in made:
                holds(lambda it=it: subprocess.run(["ssh", "-o", "BatchMode=yes", it.name, "true"], capture_output=True).returncode == 0, 30)
            yield made
        finally:
            os.environ["PATH"] = before
