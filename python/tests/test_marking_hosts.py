"""Marking on many hosts: GNU parallel over ssh to two of them, one of which dies in the middle."""

from __future__ import annotations

import getpass
import os
import shlex
import shutil
import socket
import subprocess
import time
import unittest
from pathlib import Path

from .command_support import ENVIRONMENT, PYTHON
from .mark_support import Marking, lines_of, names, of_kind, verdicts

NEEDED = ("parallel", "rsync", "ssh", "sshd", "ssh-keygen")
PATH = f"{os.environ.get('PATH', '')}:/usr/sbin:/sbin"

SSHD = """\
ListenAddress 127.0.0.1
Port {port}
HostKey {folder}/key
PidFile {folder}/{host}.pid
AuthorizedKeysFile {folder}/key.pub
StrictModes no
UsePAM no
PasswordAuthentication no
MaxStartups 100
"""

CLIENT = """\
Host {host}
HostName 127.0.0.1
Port {port}
IdentityFile {folder}/key
IdentitiesOnly yes
StrictHostKeyChecking no
UserKnownHostsFile /dev/null
LogLevel ERROR
BatchMode yes

"""

# The command as it is installed on both hosts: each keeps a list of what it was asked to mark. With
# its second candidate the second host dies: its server, and the connection in the middle of a line.
COMMAND = """\
#!/bin/bash
host=one
[ "${{SSH_CONNECTION##* }}" = {second} ] && host=two
echo "${{@: -1}}" >> {folder}/$host.log
if [ $host = two ] && [ "$(wc -l < {folder}/two.log)" -ge 2 ]; then
    printf '{{"kind": "candidate", "candidate": "'
    kill -9 "$(cat {folder}/two.pid)"
    server=$PPID
    until [ "$(cat /proc/$server/comm)" = sshd ]; do
        server=$(sed -n 's/^PPid:.//p' /proc/$server/status)
    done
    kill -9 "$server"
    exec sleep 5
fi
export PYTHONPATH={modules}
exec {python} "$@"
"""


def free_port() -> int:
    """A port of this host that nobody uses."""
    with socket.socket() as taken:
        taken.bind(("127.0.0.1", 0))
        return int(taken.getsockname()[1])


def gnu_parallel() -> bool:
    """Whether GNU parallel is there, and not another program of that name."""
    found = shutil.which("parallel", path=PATH)
    told = found and subprocess.run([found, "--version"], capture_output=True).stdout
    return bool(told) and b"GNU" in (told or b"")


@unittest.skipUnless(
    all(shutil.which(name, path=PATH) for name in NEEDED) and gnu_parallel(),
    f"not all of {', '.join(NEEDED)} are installed",
)
class Hosts(Marking):
    """Two servers on this computer, each a host of its own to parallel."""

    def setUp(self) -> None:
        super().setUp()
        self.environment = {**ENVIRONMENT, "PATH": f"{self.folder}/bin:{PATH}"}
        self.environment["HOME"] = str(self.folder)
        key = ["ssh-keygen", "-q", "-t", "ed25519", "-N", "", "-f", str(self.folder / "key")]
        subprocess.run(key, check=True, env=self.environment)
        ports = {"one": free_port(), "two": free_port()}
        settings = {
            "folder": shlex.quote(str(self.folder)),
            "second": str(ports["two"]),
            "modules": shlex.quote(ENVIRONMENT["PYTHONPATH"]),
            "python": shlex.join(PYTHON),
        }
        self.command = self.file("bin/lc3", COMMAND.format(**settings))
        self.command.chmod(0o755)
        client = ""
        for host, port in ports.items():
            client += CLIENT.format(host=host, port=port, folder=self.folder)
            self.serve(host, port)
        config = self.file("config", client)
        logins = [f"1/ssh -l {getpass.getuser()} -F {config} {host}\n" for host in ports]
        self.file("hosts", "".join(logins))

    def serve(self, host: str, port: int) -> None:
        """Starts the server of a host."""
        text = SSHD.format(host=host, port=port, folder=self.folder)
        if os.geteuid() == 0:
            Path("/run/sshd").mkdir(exist_ok=True)
        config = self.file(f"{host}.config", text)
        sshd = shutil.which("sshd", path=PATH)
        server = subprocess.Popen(
            [str(sshd), "-D", "-f", str(config), "-E", str(self.folder / f"{host}.sshd")]
        )
        self.addCleanup(server.wait)
        self.addCleanup(server.kill)
        until = time.monotonic() + 20
        while not (self.folder / f"{host}.pid").exists() and time.monotonic() < until:
            time.sleep(0.02)

    def asked(self, host: str) -> list[str]:
        """What a host was asked to mark."""
        log = self.folder / f"{host}.log"
        return [Path(line).name for line in log.read_text().splitlines()] if log.exists() else []

    def test_a_host_that_dies(self) -> None:
        paths, planted = self.planted(6)
        paths[0].parent.rename(self.folder / "students")
        given = [f"students/{path.name}" for path in paths]
        case = {"name": "one", "keys": "a", "expected": "aaHalted\n"}
        self.file("cases.json", f"[{str(case)}]".replace("'", '"').replace("\n", "\\n"))
        command = ["parallel", "--sshloginfile", "hosts", "--retries", "3", "--transferfile", "{}"]
        command += ["--basefile", "cases.json", "--cleanup", "--workdir", f"{self.folder}/there"]
        command += [str(self.command)]
        marking = ["mark", "--one", "--steps", "20000", "--cases", "cases.json"]
        done = subprocess.run(
            [*command, *marking, "{}", ":::", *given],
            cwd=self.folder,
            env=self.environment,
            capture_output=True,
            timeout=120,
        )
        self.file("marks.jsonl", done.stdout)
        dead, alive = self.asked("two"), self.asked("one")
        self.assertEqual(len(dead), 2, done.stderr)
        # Nothing is lost, and but for what the dead host left nothing was marked twice.
        lines = [line for line in done.stdout.splitlines() if line.endswith(b"}")]
        results = {line["candidate"]: line["verdict"] for line in lines_of(b"\n".join(lines))}
        self.assertEqual(len(lines), len(given), done.stderr)
        self.assertEqual(results, dict(zip(given, planted)))
        self.assertEqual(sorted(dead[:1] + alive), [path.name for path in paths])
        self.whole(given, planted)

    def whole(self, given: list[str], planted: list[str]) -> None:
        """That all results are taken over, but those of files that could not be read."""
        resume = [*PYTHON, "mark", "--json", "--steps", "20000", "--cases", "cases.json"]
        done = subprocess.run(
            [*resume, "--resume", "marks.jsonl", *given],
            cwd=self.folder,
            env=ENVIRONMENT,
            capture_output=True,
        )
        lines = lines_of(done.stdout)
        marked = of_kind("candidate", lines)
        self.assertEqual((names(marked), verdicts(marked)), (given, planted))
        self.assertEqual(lines[-1]["resumed"], len(given))


if __name__ == "__main__":
    unittest.main()
