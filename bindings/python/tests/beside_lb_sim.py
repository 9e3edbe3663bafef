"""What the package prints beside what lb_sim prints: the program is named by TEZGUMI_LB_SIM, and is no part of the bindings."""
import os
import subprocess

import tezgumi
from support import TimedTest, example


class BesideLbSim(TimedTest):
    limit = 60

    def test_replays(self):
        program = os.environ["TEZGUMI_LB_SIM"]
        for name in ("three-elements.lbd1", "three-elements.lbd2", "moving-front.lbd1"):
            for pes in (1, 2, 5, 16, 256):
                run = tezgumi.read_dump(example(name)).run
                words = [program, "--procs", str(pes), example(name)]
                text = subprocess.run(words, stdout=subprocess.PIPE, check=True, timeout=10).stdout.decode()
                self.assertEqual(tezgumi.replay_text(run, tezgumi.decide(run, pes)), text)
