"""A read, from a driver text to its end, by the package python/pafteis."""

import sys

import pafteis
from pafteis import Major, ReplyKind, World

TEXT = """\
driver echo
dispatch READ on_read
routine on_read dispatch
complete r0 SUCCESS
ret SUCCESS
endr
endd
device disk echo 1
"""

if not pafteis.check(TEXT):
    sys.exit(pafteis.explain(TEXT))

with World(TEXT, threads=2) as world:
    print("reply", int(world.issue(thread=0, device=0, major=Major.READ, argument=7).kind))
    for reply in world.finish(thread=0):
        print("reply", int(reply.kind))
        if reply.kind is ReplyKind.TOPPED:
            print(f"packet {reply.packet}: 0x{reply.status:08X}")
