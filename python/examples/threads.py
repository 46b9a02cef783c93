"""How many patches a second are laid by one, two and four threads: `threads.py CLOUD.csv`."""
import sys
import threading
import time
from pathlib import Path

import yarrowbleat

SECONDS = 1.0


def laid(cloud: yarrowbleat.Cloud, threads: int) -> float:
    """Patches a second by so many threads."""
    counts = [0] * threads
    end = time.monotonic() + SECONDS

    def run(at: int) -> None:
        while time.monotonic() < end:
            yarrowbleat.reconstruct(cloud.points, cloud.normals, cloud.radius)
            counts[at] += 1

    running = [threading.Thread(target=run, args=(at,)) for at in range(threads)]
    for thread in running:
        thread.start()
    for thread in running:
        thread.join()
    return sum(counts) / SECONDS


def main() -> None:
    cloud = yarrowbleat.read_cloud(Path(sys.argv[1]).read_bytes())
    alone = laid(cloud, 1)
    for threads in (1, 2, 4):
        rate = laid(cloud, threads)
        print(f"{threads} threads: {rate:.0f} patches a second, {rate / alone:.2f} times one thread")


main()
