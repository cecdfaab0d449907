#!/usr/bin/env python3
"""Feeds a cluster of controllers, each frame to all others in the middle of the window, and prints what they believe.

    tools/feeders/feeder.py CONTROLLER SCENARIO NODES M PERIODS

SCENARIO is a file with the scenario as one line. A bench has real links where this hands frames on.
"""
import subprocess
import sys

controller, path = sys.argv[1:3]
nodes, m, periods = map(int, sys.argv[3:6])
with open(path, "rb") as file:
    scenario = file.read().rstrip(b"\n") + b"\n"
cluster = [subprocess.Popen([controller, str(node)], stdin=subprocess.PIPE, stdout=subprocess.PIPE)
           for node in range(nodes)]


def tell(node, lines):
    cluster[node].stdin.write(lines)
    cluster[node].stdin.flush()


def answer(node):
    line = cluster[node].stdout.readline()
    if not line.endswith(b"\n") or line.startswith(b"refused "):
        sys.exit(f"node {node} ended: {line.decode().strip()}")
    return line


for node in range(nodes):
    tell(node, scenario)
for period in range(periods):
    for node in range(nodes):
        tell(node, b"begin %d\n" % period)
    for slot in range(2 * m + 4):
        said = [answer(node).split()[2] for node in range(nodes)]
        for node in range(nodes):
            heard = [b"deliver %d 15 %s\n" % (sender, said[sender]) for sender in range(nodes) if sender != node]
            tell(node, b"".join(heard) + b"end\n")
    print(f"period {period}")
    for node in range(nodes):
        answer(node)
        head = answer(node).decode()
        more = [] if head.endswith(" cold\n") else [answer(node).decode() for _ in range(3)]
        print(head + "".join(more), end="")
for node in range(nodes):
    cluster[node].stdin.close()
    if answer(node) != b"end %d\n" % periods or cluster[node].wait() != 0:
        sys.exit(f"node {node} didn't end well")
