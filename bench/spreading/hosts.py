"""Three hosts on one machine, on which the ways of README.md are tried.

A host is a network namespace with an address of its own, a name of its own, processes that see no others, and files under /srv and /run
that no other host sees; the rest of the file system is the machine's. `sshd` runs on it. A host dies as one does whose power fails: the network
is gone first, so nobody is told, and then its processes. This needs root, `ip` of iproute2, `unshare` and `nsenter` of util-linux, and sshd.
"""
import subprocess
import time
from pathlib import Path

BRIDGE, NET = "latsefur-bridge", "10.77.41"
HERE_ADDRESS = f"{NET}.254"

SSHD = """Port 22
HostKey {work}/host_key
AuthorizedKeysFile {work}/key.pub
PermitRootLogin yes
PasswordAuthentication no
StrictModes no
PidFile none
MaxStartups 100
Subsystem sftp internal-sftp
"""
SSH = """Host latsefur-*
    IdentityFile {work}/key
    User root
    StrictHostKeyChecking no
    UserKnownHostsFile /dev/null
    LogLevel ERROR
    ConnectTimeout 3
    ServerAliveInterval 2
    ServerAliveCountMax 2
"""
BEGIN = """
hostname "$1"
for place in /srv /run; do mount -t tmpfs none "$place"; done
mkdir -p /run/sshd /srv/latsefur
exec /usr/sbin/sshd -D -f "$2"
"""


def do(*words, check=True, **streams):
    return subprocess.run([str(word) for word in words], check=check, **streams)


class Host:
    """A host. `name` is also what ssh calls it, with the file `ssh_config`."""

    def __init__(self, number, work):
        self.name, self.address, self.alive = f"latsefur-{number}", f"{NET}.{number}", True
        self.link = f"latsefur-e{number}"
        do("ip", "netns", "add", self.name)
        do("ip", "link", "add", self.link, "type", "veth", "peer", "name", "eth0", "netns", self.name)
        do("ip", "link", "set", self.link, "master", BRIDGE, "up")
        for words in (("addr", "add", f"{self.address}/24", "dev", "eth0"), ("link", "set", "eth0", "up"), ("link", "set", "lo", "up")):
            do("ip", "-n", self.name, *words)
        alone = ["unshare", "--pid", "--fork", "--kill-child", "--mount-proc", "--uts"]
        self.begun = subprocess.Popen(["ip", "netns", "exec", self.name, *alone, "sh", "-ec", BEGIN, "sh", self.name, f"{work}/sshd_config"])

    def first(self):
        """The process that the host's other ones descend from."""
        children = Path(f"/proc/{self.begun.pid}/task/{self.begun.pid}/children").read_text().split()
        return children[0]

    def do(self, *words, **streams):
        """Runs a command on the host, and waits for it."""
        return do("nsenter", "--target", self.first(), "--all", "--", *words, **streams)

    def begin(self, *words, **streams):
        """Starts a program on the host, which ends with it."""
        return subprocess.Popen(["nsenter", "--target", self.first(), "--all", "--", *map(str, words)], **streams)

    def die(self):
        """Ends the host without a word to anybody."""
        if self.alive:
            self.alive = False
            do("ip", "link", "set", self.link, "down")
            self.begun.kill()
            self.begun.wait()


class Hosts:
    """The hosts, from `with` to its end. Files of the try lie in the folder `work`."""

    def __init__(self, work, count=3):
        self.work, self.count, self.all = Path(work), count, []

    def __enter__(self):
        self.clear()
        do("ip", "link", "add", BRIDGE, "type", "bridge")
        do("ip", "addr", "add", f"{HERE_ADDRESS}/24", "dev", BRIDGE)
        do("ip", "link", "set", BRIDGE, "up")
        for name in ("host_key", "key"):
            (self.work / name).unlink(missing_ok=True)
            do("ssh-keygen", "-q", "-t", "ed25519", "-N", "", "-f", self.work / name)
        (self.work / "sshd_config").write_text(SSHD.format(work=self.work))
        addresses = "".join(f"Host latsefur-{number}\n    HostName {NET}.{number}\n" for number in range(1, self.count + 1))
        (self.work / "ssh_config").write_text(SSH.format(work=self.work) + addresses)
        try:
            for number in range(1, self.count + 1):
                self.all.append(Host(number, self.work))
            for host in self.all:
                self.wait_for(host)
        except BaseException:
            self.__exit__()
            raise
        return self.all

    def wait_for(self, host):
        for _ in range(100):
            if do("ssh", "-F", self.work / "ssh_config", host.name, "true", check=False, stderr=subprocess.DEVNULL).returncode == 0:
                return
            time.sleep(0.1)
        raise SystemExit(f"{host.name} doesn't answer")

    def __exit__(self, *fault):
        for host in self.all:
            host.die()
        self.clear()

    def clear(self):
        """Removes what this or an earlier try has left."""
        for number in range(1, self.count + 1):
            do("ip", "netns", "del", f"latsefur-{number}", check=False, stderr=subprocess.DEVNULL)
            do("ip", "link", "del", f"latsefur-e{number}", check=False, stderr=subprocess.DEVNULL)
        do("ip", "link", "del", BRIDGE, check=False, stderr=subprocess.DEVNULL)
