#!/usr/bin/env python3
"""Holds campaigns on a cluster of Dask's four workers against one process: a worker is ended, one paused, one ended with its nanny, the
campaign stopped; no worker is there, and the scheduler ends. Then campaigns of compiled code (tests/checks/campaigns/compiled_campaigns.py).

    tests/cluster.py PROGRAM [--cycles N] [--seed S]

N cycles of six edges with locked accesses (10,000), drawn by the seed (1). tests/batteries.py does the same with a few. The last line is
'N passed, M failed'.
"""
import sys

sys.dont_write_bytecode = True
from checks import judging
from checks.campaigns import cluster_campaigns
from checks.tools.tool_runs import Tally


def main():
    parser = judging.with_program(__doc__, with_part=False)
    parser.add_argument("--cycles", type=int, default=10_000)
    parser.add_argument("--seed", type=int, default=cluster_campaigns.SEED)
    asked = parser.parse_args()
    tally = Tally()
    cluster_campaigns.judge(asked.program, tally, asked.cycles, asked.seed)
    return tally.end()


if __name__ == "__main__":
    sys.exit(main())
