"""A slow and lossy link between two network devices, which it makes: slow_link.py DEVICE DEVICE MILLISECONDS LOSS

Each frame that comes out of a device goes into the other one that many milliseconds later; the share LOSS of frames is lost. Prints `ready`
when both devices are made. A device may be moved into a network namespace afterwards.
"""

from __future__ import annotations

import fcntl
import heapq
import os
import random
import select
import struct
import sys
import time

# Of <linux/if_tun.h>: an Ethernet device without a header before each frame.
TUNSETIFF, IFF_TAP, IFF_NO_PI = 0x400454CA, 0x0002, 0x1000
LARGEST = 1 << 16


def device(name: str) -> int:
    """Makes a network device and returns its file descriptor."""
    opened = os.open("/dev/net/tun", os.O_RDWR | os.O_NONBLOCK)
    fcntl.ioctl(opened, TUNSETIFF, struct.pack("16sH", name.encode(), IFF_TAP | IFF_NO_PI))
    return opened


def forward(ends: tuple[int, int], seconds: float, loss: float) -> None:
    """Forwards frames for ever."""
    other = {ends[0]: ends[1], ends[1]: ends[0]}
    chance = random.Random(1)
    waiting: list[tuple[float, int, int, bytes]] = []
    count = 0
    while True:
        wait = max(0.0, waiting[0][0] - time.monotonic()) if waiting else None
        for end in select.select(ends, [], [], wait)[0]:
            frame = os.read(end, LARGEST)
            if chance.random() >= loss:
                count += 1
                heapq.heappush(waiting, (time.monotonic() + seconds, count, other[end], frame))
        while waiting and waiting[0][0] <= time.monotonic():
            _, _, end, frame = heapq.heappop(waiting)
            try:
                os.write(end, frame)
            except OSError:
                # The device is down: the frame is lost.
                continue


if __name__ == "__main__":
    ends = device(sys.argv[1]), device(sys.argv[2])
    print("ready", flush=True)
    forward(ends, float(sys.argv[3]) / 1000, float(sys.argv[4]))
