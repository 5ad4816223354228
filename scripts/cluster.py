"""A cluster on one machine: a controller of Slurm, and two nodes, each with a network, a name and processes of its own, over one folder.

    cluster.unshared(["scripts/test-campaign"])     runs a command where a cluster may be laid
    with cluster.Cluster(room) as it: ..             lays one there; `it.env` is the environment in which its commands work, and all
                                                    machines have the programs of room/bin

Slurm, munge and sshd run in the foreground, with all their files in the room; nothing of the machine's own is changed, and nothing is
left when the command ends. It wants root.
"""
import contextlib
import os
import shutil
import signal
import subprocess
import time

SLURM = ("slurmctld", "slurmd", "sbatch", "munged")
SSH = ("sshd", "ssh", "ssh-keygen")
# Namespaces of its own for mounts, network, name and processes, all of which end with their first.
UNSHARE = ["unshare", "--mount", "--net", "--uts", "--pid", "--fork", "--kill-child", "--mount-proc"]
NODES = ("bench1", "bench2")

CONF = """\
ClusterName=bench
SlurmctldHost=control(10.99.0.1)
AuthType=auth/munge
AuthInfo=socket={room}/munge.socket,cred_expire=5
MpiDefault=none
ProctrackType=proctrack/linuxproc
TaskPlugin=task/none
SelectType=select/cons_tres
SelectTypeParameters=CR_CPU
SchedulerParameters=sched_interval=1,bf_interval=1,batch_sched_delay=0,sched_min_interval=0
SlurmUser=root
SlurmdUser=root
StateSaveLocation={room}/state
SlurmdSpoolDir={room}/spool.%n
SlurmctldPidFile={room}/slurmctld.pid
SlurmdPidFile={room}/slurmd.%n.pid
SlurmctldLogFile={room}/slurmctld.log
SlurmdLogFile={room}/slurmd.%n.log
SlurmdTimeout=60
KillWait=2
ReturnToService=2
SlurmdParameters=config_overrides
NodeName=bench1 NodeAddr=10.99.0.2 CPUs=2 RealMemory=8000
NodeName=bench2 NodeAddr=10.99.0.3 CPUs=2 RealMemory=8000
PartitionName=all Nodes=bench1,bench2 Default=YES State=UP
"""

SSHD = """\
Port 22
HostKey {room}/host.key
AuthorizedKeysFile {room}/user.key.pub
PermitRootLogin yes
StrictModes no
UsePAM no
PidFile none
SetEnv PATH={path}
"""

SSH_CONFIG = """\
Host *
    IdentityFile {room}/user.key
    StrictHostKeyChecking no
    UserKnownHostsFile /dev/null
    LogLevel ERROR
    ConnectTimeout 3
"""

# What a node does when its network is there: its name, its address, its daemons.
NODE = """\
hostname {name}
until ip link show eth0 >/dev/null 2>&1; do sleep 0.05; done
ip link set lo up && ip addr add {address}/24 dev eth0 && ip link set eth0 up
[ ! -e {room}/host.key ] || "$(command -v sshd)" -D -f {room}/sshd_config &
[ ! -e {room}/munge.key ] || exec slurmd -D -N {name}
wait
"""


def missing(tools):
    """Why there can be no cluster with these tools, if so."""
    if os.geteuid() != 0:
        return "not root"
    lacking = [it for it in ("unshare", "ip", *tools) if not shutil.which(it)]
    return f"no {lacking[0]}" if lacking else None


def may_unshare():
    """Whether this machine lets us lay networks of our own."""
    lay = "mount -t tmpfs tmpfs /run && ip link add br0 type bridge && ip link add v1 type veth peer name v2"
    return subprocess.run([*UNSHARE, "sh", "-c", lay], capture_output=True).returncode == 0


def unshared(command):
    """Runs a command in namespaces of its own, which end with it. Its status."""
    return subprocess.run([*UNSHARE, *command]).returncode


class Cluster:
    """The controller and its nodes, which end when it does. It has Slurm where that is there, and sshd where that is."""

    def __init__(self, room):
        self.room, self.nodes, self.daemons = room, {}, []
        self.has_slurm, self.has_ssh = missing(SLURM) is None, missing(SSH) is None
        self.env = {
            **os.environ,
            "PATH": f"{room}/bin:{os.environ['PATH']}",
            "SLURM_CONF": f"{room}/slurm.conf",
            "PARALLEL_SSH": f"ssh -F {room}/ssh_config",
            "PARALLEL_HOME": f"{room}/parallel",
        }

    def __enter__(self):
        # (these mounts are of our own namespace)
        self.call("mount", "-t", "tmpfs", "tmpfs", "/run")
        os.makedirs("/run/sshd")
        hosts = {"localhost": "127.0.0.1", "control": "10.99.0.1", **{it: self.address(it) for it in NODES}}
        self.write("hosts", "".join(f"{address} {name}\n" for name, address in hosts.items()))
        self.call("mount", "--bind", f"{self.room}/hosts", "/etc/hosts")
        self.call("hostname", "control")
        self.call("ip", "link", "set", "lo", "up")
        self.call("ip", "link", "add", "br0", "type", "bridge")
        self.call("ip", "addr", "add", "10.99.0.1/24", "dev", "br0")
        self.call("ip", "link", "set", "br0", "up")
        if self.has_ssh:
            self.lay_ssh()
        if self.has_slurm:
            self.lay_slurm()
        for it in NODES:
            self.start_node(it)
        if self.has_slurm:
            self.start("slurmctld", "-D")
            self.wait_idle()
        return self

    def __exit__(self, *_):
        for it in [*self.nodes.values(), *self.daemons]:
            it.kill()
            it.wait()

    def call(self, *command):
        """Runs a command, which has to succeed. What it writes."""
        return subprocess.run(command, check=True, env=self.env, stdout=subprocess.PIPE, text=True).stdout

    def start(self, *command):
        """Starts a daemon, in the foreground."""
        with open(f"{self.room}/{os.path.basename(command[0])}.out", "wb") as out:
            self.daemons.append(subprocess.Popen(command, env=self.env, stdout=out, stderr=out))

    def write(self, name, text):
        with open(f"{self.room}/{name}", "w") as file:
            file.write(text.format(room=self.room, path=self.env["PATH"]))

    def wait(self, is_so, fault, seconds=90):
        """Waits until something is so."""
        end = time.monotonic() + seconds
        while not is_so():
            if time.monotonic() > end:
                raise TimeoutError(fault)
            time.sleep(0.1)

    def lay_slurm(self):
        self.write("slurm.conf", CONF)
        for it in ("state", *(f"spool.{node}" for node in NODES)):
            os.mkdir(f"{self.room}/{it}")
        with open(os.open(f"{self.room}/munge.key", os.O_WRONLY | os.O_CREAT, 0o400), "wb") as file:
            file.write(os.urandom(128))
        files = (f"--{it}{suffix}={self.room}/munge.{it}" for it, suffix in (
            ("key", "-file"), ("socket", ""), ("pid", "-file"), ("log", "-file"), ("seed", "-file")
        ))  # fmt: skip
        self.start("munged", "--foreground", "--force", *files)

    def lay_ssh(self):
        for it in ("host.key", "user.key"):
            self.call("ssh-keygen", "-q", "-t", "ed25519", "-N", "", "-f", f"{self.room}/{it}")
        self.write("sshd_config", SSHD)
        self.write("ssh_config", SSH_CONFIG)

    @staticmethod
    def address(name):
        return f"10.99.0.{NODES.index(name) + 2}"

    def start_node(self, name):
        script = NODE.format(name=name, address=self.address(name), room=self.room)
        with open(f"{self.room}/{name}.out", "wb") as out:
            node = subprocess.Popen([*UNSHARE, "sh", "-c", script], env=self.env, stdout=out, stderr=out)
        self.nodes[name] = node
        # (once it has a network of its own)
        ours = os.readlink("/proc/self/ns/net")
        self.wait(lambda: os.readlink(f"/proc/{node.pid}/ns/net") != ours, f"{name} has no network")
        self.call("ip", "link", "add", f"to-{name}", "type", "veth", "peer", "name", "eth0", "netns", str(node.pid))
        self.call("ip", "link", "set", f"to-{name}", "master", "br0", "up")

    def kill_node(self, name):
        """A node loses its power: all its processes end at once. Slurm is told."""
        self.nodes[name].send_signal(signal.SIGKILL)
        self.nodes[name].wait()
        # (calls that are not answered would keep its network for a while)
        self.call("ip", "link", "del", f"to-{name}")
        if self.has_slurm:
            self.set_state(name, "down")

    def cut_node(self, name):
        """The network of a node is cut; it works on. Slurm is told."""
        self.call("ip", "link", "set", f"to-{name}", "down")
        if self.has_slurm:
            self.set_state(name, "down")

    def restart_node(self, name):
        """A node comes back."""
        self.kill_node(name)
        self.start_node(name)

    def set_state(self, name, state):
        with contextlib.suppress(subprocess.CalledProcessError):
            self.call("scontrol", "update", f"nodename={name}", f"state={state}", "reason=test")

    def wait_idle(self):
        """Waits until all nodes are there, with nothing to do."""
        self.wait(lambda: self.states() == {it: "idle" for it in NODES}, f"the nodes are not idle: {self.states()}")

    def states(self):
        """What Slurm says of each node."""
        done = subprocess.run(["sinfo", "-h", "-N", "-o", "%n %T"], env=self.env, capture_output=True, text=True)
        return dict(it.split() for it in done.stdout.splitlines())
