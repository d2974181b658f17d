"""The relay's service as it is installed, run by a real systemd as process 1: python3 -B -m share.tests.booted_service, as root."""
import os
import pathlib
import subprocess
import unittest

from share.tests.servers import held_port, port_of
from share.tests.support import TOP, Case

BOOTS = str(TOP / "share" / "tests" / "booted.sh")
CAN_BOOT = os.geteuid() == 0 and pathlib.Path("/sys/fs/cgroup/systemd/cgroup.procs").exists()
# To bind a low port, and nothing else.
CAP_NET_BIND_SERVICE = 1 << 10


@unittest.skipUnless(CAN_BOOT, "this needs root, and control groups of version 1")
class Booted(Case):
    """What the service does and can't do."""

    def test_the_relay_runs_with_no_more_rights_than_it_needs(self) -> None:
        for name in "seen", "over":
            (self.folder / name).mkdir()
        with held_port() as held:
            words, environment = [BOOTS, str(self.folder), str(TOP)], {**os.environ, "PORT": str(port_of(held))}
            run = subprocess.run(words, env=environment, capture_output=True, text=True, check=False, timeout=900)
        found = dict(line.split("=", 1) for line in (self.folder / "seen" / "found").read_text().splitlines() if "=" in line)
        self.assertEqual((run.returncode, found.get("first"), found.get("reached")), (0, "systemd", "yes"), (run.stderr[-2_000:], found))
        self.assertNotIn("0", found["Uid"].split())
        for name in "CapEff", "CapBnd":
            self.assertEqual(int(found[name], 16), CAP_NET_BIND_SERVICE)
        self.assertEqual((found["NoNewPrivs"], found["Seccomp"], found["DynamicUser"], found["MemoryMax"]), ("1", "2", "yes", str(2**30)))
        # It reads the system, sees no home, and writes its own folder alone, which nobody else reads.
        self.assertEqual({place: found[place] for place in found if place.startswith("/")}, {
            "/usr": "reads", "/usr/local": "reads", "/etc": "reads", "/var/lib": "reads", "/proc/sys/kernel": "reads",
            "/var/lib/private/vialshoal-relay": "readswrites"})
        self.assertEqual((found["kept"], found["ActiveState"]), ("700", "active"))
        # Killed it begins again, and is ended with 0.
        self.assertEqual((found["again"], found["ended"]), ("yes", "success"))


if __name__ == "__main__":
    unittest.main()
