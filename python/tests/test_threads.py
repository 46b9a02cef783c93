"""Calls run side by side: each runs without the interpreter's lock."""
import threading
import time

import numpy as np
import yarrowbleat as yb


def wall(around, rings):
    """A bell's wall, points next to each other about 1 apart."""
    angle = np.arange(around * rings) % around * (2 * np.pi / around)
    height = np.arange(around * rings) // around
    radius = around / (2 * np.pi)
    points = np.stack([radius * np.cos(angle), radius * np.sin(angle), height], axis=1).astype(np.float32)
    return points, np.stack([np.cos(angle), np.sin(angle), 0 * angle], axis=1).astype(np.float32)


def test_threads_give_the_same():
    points, normals = wall(64, 16)
    alone = yb.reconstruct(points, normals, 1.5)
    faces = [None] * 8

    def run(at):
        faces[at] = yb.reconstruct(points, normals, 1.5).faces

    threads = [threading.Thread(target=run, args=(at,)) for at in range(8)]
    [thread.start() for thread in threads]
    [thread.join() for thread in threads]
    assert all(np.array_equal(found, alone.faces) for found in faces)


def test_the_lock_is_released():
    """While one call runs, Python goes on: a counter moves during a single call of some milliseconds."""
    points, normals = wall(128, 32)
    counted, done = [0], threading.Event()

    def count():
        while not done.is_set():
            counted[0] += 1
            time.sleep(0)

    counter = threading.Thread(target=count)
    counter.start()
    settings = yb.Settings(radius=1.5)
    from yarrowbleat import _library
    from yarrowbleat._arrays import slices, work

    words, floats = work(len(points))
    faces, origins = np.empty((10_000, 3), np.uint32), np.empty((10_000, 2), np.uint32)
    arguments = (*slices(points, normals), settings._lent(), False, *slices(faces, origins, words, floats))
    moved = []
    for _ in range(20):
        before = counted[0]
        _library.C.yb_reconstruct_with_origins(*arguments)
        moved.append(counted[0] - before)
    done.set()
    counter.join()
    assert max(moved) > 10, moved
