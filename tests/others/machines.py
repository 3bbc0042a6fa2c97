"""Shards on other machines: by GNU parallel over ssh, and by an array of jobs of Slurm. Here each is this machine.

The commands are those of docs/SCALE.md, over fewer candidates. The servers are started here, as the user who runs the
test, with keys, ports and folders of their own: no file of the machine's own ssh, munge or Slurm is read or changed.
"""

import os
import pwd
import re
import socket
import subprocess

import daemons
import harness
import packages
import shards

SECONDS = 120
# What the docs search, and what is searched here: `shards.CANDIDATES` by the condition of `shards.WHERE`.
CONDITIONS = {"hcp(north)>=35": shards.WHERE[1]}
OVER_SSH = {"seq 0 100000000 9900000000": "seq 0 1000000 11000000", " 100000000 ": " 1000000 ", **CONDITIONS}
IN_SLURM = {"--array=0-99": "--array=0-3", " 100000000 ": " 3000000 ", **CONDITIONS}
SSH_SHARDS = 12
SLURM_SHARDS = 4

SERVER = """\
ListenAddress 127.0.0.1:{port}
HostKey {folder}/host
PidFile {folder}/sshd.pid
AuthorizedKeysFile {folder}/user.pub
PermitRootLogin prohibit-password
PasswordAuthentication no
StrictModes no
UsePAM {pam}
MaxStartups 100
SetEnv "PATH={path}"
"""
CLIENT = """\
Host one two
HostName 127.0.0.1
HostKeyAlias machine
Port {port}
IdentityFile {folder}/user
IdentitiesOnly yes
IdentityAgent none
UserKnownHostsFile {folder}/known
GlobalKnownHostsFile none
StrictHostKeyChecking yes
BatchMode yes
"""
CLUSTER = """\
ClusterName=deals
SlurmctldHost={host}(127.0.0.1)
SlurmctldPort={ports[0]}
SlurmdPort={ports[1]}
SlurmUser={user}
SlurmdUser={user}
AuthType=auth/munge
AuthInfo=socket={folder}/munge.socket
StateSaveLocation={folder}/state
SlurmdSpoolDir={folder}/spool
SlurmctldPidFile={folder}/slurmctld.pid
SlurmdPidFile={folder}/slurmd.pid
ProctrackType=proctrack/linuxproc
TaskPlugin=task/none
JobAcctGatherType=jobacct_gather/none
MpiDefault=none
CommunicationParameters=NoInAddrAny,NoCtldInAddrAny
ReturnToService=2
SelectType=select/cons_tres
SelectTypeParameters=CR_CPU
SlurmdParameters=config_overrides
NodeName={host} NodeAddr=127.0.0.1 CPUs={cores} State=UNKNOWN
PartitionName=all Nodes={host} Default=YES MaxTime=INFINITE State=UP
"""


def need_service(package, file):
    """As `packages.need`. But a server that a running systemd would start, now and each time that the machine is, isn't
    put there by a run by hand."""
    if os.path.isdir("/run/systemd/system") and os.environ.get("CI") != "true" and not packages.is_there(file):
        raise packages.Missing(f"{package} is not installed, and as a service it isn't by a run by hand")
    packages.need(package, file)


def shown(words, changes):
    """The command of docs/SCALE.md that has these words, with other numbers and another condition."""
    text = (harness.TOP / "docs" / "SCALE.md").read_text(encoding="utf-8")
    [command] = [block for block in re.findall(r"^```sh\n(.*?)^```", text, re.MULTILINE | re.DOTALL) if words in block]
    command = command.replace("/usr/share/doc/deals/", "")
    for before, after in changes.items():
        if before not in command:
            raise ValueError(f"docs/SCALE.md: {before!r} isn't in the command with {words!r}")
        command = command.replace(before, after)
    return command


def settings(**more):
    """The environment of a command: `deals` is the built program. GNU parallel takes a path below the user's own folder
    for one below the other machine's, so that has to be the one that sshd knows."""
    path = f"{harness.PROGRAM.parent}{os.pathsep}{os.environ['PATH']}"
    return {**os.environ, "PATH": path, "HOME": pwd.getpwuid(os.getuid()).pw_dir, **more}


def shell(folder, command, known):
    """How a shell ended that ran the command in the folder, as text; None if with status 0."""
    status = daemons.ended(daemons.start(folder, "shell.log", ["sh", "-e", "-c", command], known), SECONDS)
    return None if status == 0 else f"status {status}: {daemons.said(folder, 'shell.log')}"


def new_keys(folder):
    """A key of the server and one of the user."""
    for name in ("host", "user"):
        subprocess.run(["ssh-keygen", "-q", "-t", "ed25519", "-N", "", "-f", folder / name], check=True)
    (folder / "known").write_text("machine " + (folder / "host.pub").read_text())


def lets_in(folder, pam):
    """Whether a server of ssh that is started here lets this user in."""
    [port] = daemons.free_ports(1)
    known = {"folder": folder, "port": port, "pam": pam, "path": settings()["PATH"]}
    (folder / "sshd_config").write_text(SERVER.format(**known))
    (folder / "ssh_config").write_text(CLIENT.format(**known))
    server = daemons.start(folder, "sshd.log", ["/usr/sbin/sshd", "-D", "-e", "-f", folder / "sshd_config"])
    daemons.becomes(lambda: server.poll() is not None or daemons.listens(port), SECONDS)
    login = daemons.start(folder, "ssh.log", ["ssh", "-F", folder / "ssh_config", "one", "true"])
    if daemons.ended(login, SECONDS) == 0:
        return True
    server.terminate()
    server.wait(SECONDS)
    return False


def logins(folder):
    """How often the server let the user in."""
    return (folder / "sshd.log").read_text().count("Accepted publickey")


def with_files(deals, folder, known):
    """The shards' files, on a folder that the machines share."""
    why = shell(folder, shown("--sshloginfile machines --workdir .", OVER_SSH), known)
    yield "ssh, with files", why
    if why is None:
        hosts = {line.split("\t")[1] for line in (folder / "search.log").read_text().splitlines()[1:]}
        yield "ssh, on both machines", None if hosts == {"one", "two"} else f"on {hosts}"
        right = shards.picked(deals, folder / "found") == shards.made(deals)
        yield "ssh, with files, picked", None if right else "isn't what make writes"


def without_files(deals, folder, known):
    """What the shards print, in their order."""
    why = shell(folder, shown("parallel -k --sshloginfile machines", OVER_SSH), known)
    yield "ssh, without files", why
    right = deals("pick", *shards.SEED, given=(folder / "found.txt").read_bytes()).stdout == shards.made(deals)
    yield "ssh, without files, picked", None if right else "isn't what make writes"


def ssh_works(deals, folder):
    """GNU parallel over ssh, by a server of this folder."""
    new_keys(folder)
    # Without PAM the account has to have no locked password, with it the machine has to have a working PAM.
    if not any(lets_in(folder, pam) for pam in ("no", "yes")):
        yield "ssh", daemons.said(folder, "sshd.log", "ssh.log")
        return
    (folder / "examples").symlink_to(harness.TOP / "examples")
    (folder / "machines").write_text("2/one\n2/two\n")
    (folder / "parallel").mkdir()
    (folder / "parallel" / "will-cite").touch()
    known = settings(PARALLEL_SSH=f"ssh -F {folder}/ssh_config", PARALLEL_HOME=str(folder / "parallel"))
    before = logins(folder)
    yield from with_files(deals, folder, known)
    yield from without_files(deals, folder, known)
    count = logins(folder) - before
    yield "ssh, a login for each shard", None if count == 2 * SSH_SHARDS else f"{count} logins"


def over_ssh(deals):
    """GNU parallel over ssh."""
    packages.need("parallel", "parallel")
    packages.need("openssh-client", "ssh", "ssh-keygen")
    need_service("openssh-server", "/usr/sbin/sshd")
    # Started by root, sshd needs this folder for what it does before a login.
    own = os.geteuid() == 0 and not os.path.isdir("/run/sshd")
    if own:
        os.mkdir("/run/sshd", 0o755)
    try:
        with daemons.place() as folder:
            yield from ssh_works(deals, folder)
    finally:
        if own:
            os.rmdir("/run/sshd")


def start_munge(folder):
    """Starts the service by which the parts of Slurm know each other."""
    key = folder / "munge.key"
    key.touch(0o600)
    key.write_bytes(os.urandom(128))
    words = [f"--{name}={folder}/munge.{end}" for name, end in (("key-file", "key"), ("socket", "socket"))]
    words += [f"--{name}={folder}/munge.{end}" for name, end in (("pid-file", "pid"), ("seed-file", "seed"))]
    # Others can't reach the socket in a folder of root's alone, which it would refuse.
    daemons.start(folder, "munged.log", ["/usr/sbin/munged", "--foreground", "--force", *words])
    return daemons.becomes((folder / "munge.socket").exists, SECONDS)


def start_cluster(folder, known):
    """Starts a Slurm of one node; whether it is ready for jobs."""
    host = socket.gethostname().split(".")[0]
    parts = {"folder": folder, "host": host, "cores": os.cpu_count(), "ports": daemons.free_ports(2)}
    parts["user"] = pwd.getpwuid(os.getuid()).pw_name
    (folder / "slurm.conf").write_text(CLUSTER.format(**parts))
    for name in ("state", "spool"):
        (folder / name).mkdir()
    if not start_munge(folder):
        return False
    for name in ("slurmctld", "slurmd"):
        daemons.start(folder, f"{name}.log", [f"/usr/sbin/{name}", "-D", "-f", folder / "slurm.conf"], known)
    return daemons.becomes(lambda: is_idle(folder, known), SECONDS)


def is_idle(folder, known):
    """Whether the one node waits for jobs."""
    (folder / "state.log").unlink(missing_ok=True)
    asked = daemons.start(folder, "state.log", ["sinfo", "--noheader", "--format=%t"], known)
    return daemons.ended(asked, SECONDS) == 0 and (folder / "state.log").read_text().strip() == "idle"


def slurm_works(deals, folder):
    """An array of jobs, by a Slurm of this folder."""
    known = settings(SLURM_CONF=str(folder / "slurm.conf"), SBATCH_WAIT="1", SHARD=str(shards.SHARD))
    if not start_cluster(folder, known):
        yield "Slurm", daemons.said(folder, "munged.log", "slurmctld.log", "slurmd.log", "state.log")
        return
    (folder / "examples").symlink_to(harness.TOP / "examples")
    why = shell(folder, shown("sbatch --array", IN_SLURM), known)
    logs = sorted(path.name for path in folder.glob("deals-*_*.log"))
    yield "Slurm, an array of jobs", why or (None if len(logs) == SLURM_SHARDS else f"logs: {logs}")
    if why is None:
        right = shards.picked(deals, folder / "found") == shards.made(deals)
        yield "Slurm, picked", None if right else "isn't what make writes"


def slurm(deals):
    """An array of jobs of Slurm."""
    need_service("munge", "/usr/sbin/munged")
    need_service("slurmctld", "/usr/sbin/slurmctld")
    need_service("slurmd", "/usr/sbin/slurmd")
    packages.need("slurm-client", "sbatch", "sinfo")
    with daemons.place() as folder:
        yield from slurm_works(deals, folder)
