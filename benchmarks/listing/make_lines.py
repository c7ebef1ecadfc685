#!/usr/bin/env python3
"""make_lines.py COUNT: prints COUNT lines of packets in hex, of all seven kinds, some of them bad; always the same lines."""
import sys

state = 20261115


def below(n):
    global state
    state = (state * 6364136223846793005 + 1442695040888963407) % 2**64
    return (state >> 33) % n


def four(n):
    return [n >> 24 & 255, n >> 16 & 255, n >> 8 & 255, n & 255]


def sender():
    return [below(256), below(256)]


def payload(words):
    return [below(256) for _ in range(4 * words)]


def address(wide):
    return four(1 + below(65536) if wide else 0)[0 if wide else 4 :] + four(below(2**31) * 4 % 2**32)


def request(wide, at, write, words, tag, byte7):
    first = 0x20 * wide + 0x40 * write
    head = [first, 0, at << 2 | words >> 8, words & 255] + sender() + [tag, byte7]
    return head + address(wide) + (payload(words) if write else [])


def tr():
    return request(below(2), 1, 0, 2 * (1 + below(16)), below(256), 0xFF)


def mem_read():
    words = 1 + below(32)
    return request(below(2), 2 * below(2), 0, words, below(256), 0x0F if words == 1 else 0xFF)


def mem_write():
    words = 1 + below(8)
    return request(below(2), 2 * below(2), 1, words, 0, 0x0F if words == 1 else 0xFF)


def cpl():
    if below(2):
        words = 2 * (1 + below(4))
        head = [0x4A, 0, 0, words] + sender() + [below(8), below(256)]
        return head + sender() + [below(256), below(128)] + payload(words)
    return [0x0A, 0, 0, 0] + sender() + [0x20 * [0, 1, 4][below(3)], 4] + sender() + [below(256), 0]


def inv():
    body = [below(256) for _ in range(6)] + [0x08 * below(2), 0]
    return [0x72, 0, 0, 2] + sender() + [below(32), 1] + sender() + [0] * 6 + body


def ic():
    return [0x32, 0, 0, 0] + sender() + [0, 2] + sender() + [0, below(8)] + [below(256) for _ in range(4)]


def prq():
    return [0x30, 0, 0, 0] + sender() + [0, 4] + [below(256) for _ in range(8)]


def prs():
    return [0x32, 0, 0, 0] + sender() + [0, 5] + sender() + [below(2) << 4, below(256), 0, 0, 0, 0]


kinds = [tr, mem_read, mem_write, cpl, inv, ic, prq, prs]


def spoiled(line):
    way = below(6)
    if way == 0:
        return line[:-1]
    if way == 1:
        return line[: len(line) // 2] + "x" + line[len(line) // 2 + 1 :]
    if way == 2:
        return line + "00"
    if way == 3:
        return line[:4] + "F" + line[5:]
    if way == 4:
        return line * 12
    return ""


lines = []
for _ in range(int(sys.argv[1])):
    line = bytes(kinds[below(len(kinds))]()).hex()
    if below(2):
        line = line.upper()
    if below(32) == 0:
        line = spoiled(line)
    lines.append(line)
sys.stdout.write("\n".join(lines) + "\n")
