"""A part of a cluster of Dask's, for tests/checks/campaigns/cluster_campaigns.py: `scheduler`, which prints its address; or `nanny ADDRESS`, which
has one worker, begins it anew where it ends, and prints its process. Either runs until it is ended."""
import asyncio
import sys

from distributed import Nanny, Scheduler


async def run_scheduler():
    async with Scheduler(host="127.0.0.1", port=0, dashboard=False) as scheduler:
        print(scheduler.address, flush=True)
        await scheduler.finished()


async def run_nanny(address):
    async with Nanny(address, nthreads=1, host="127.0.0.1") as nanny:
        print(nanny.pid, flush=True)
        await nanny.finished()


if __name__ == "__main__":
    asyncio.run(run_scheduler() if sys.argv[1] == "scheduler" else run_nanny(sys.argv[2]))
