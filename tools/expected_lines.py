#!/usr/bin/env python3
"""Works out the program's lines from its input, with plain Python and nothing of the program.

usage: expected_lines.py < crates/mangertick/stdin > crates/mangertick/stdout
"""
import ipaddress
import sys


def folded(header):
    """The ones' complement sum, by adding first and folding the carries in afterwards."""
    total = sum(int.from_bytes(header[i:i + 2], "big") for i in range(0, len(header), 2))
    while total > 0xFFFF:
        total = (total >> 16) + (total & 0xFFFF)
    return total


def line(packet):
    if len(packet) < 20:
        return "denied 10"
    version, words = divmod(packet[0], 16)
    if version != 4:
        return "denied 11"
    if words < 5:
        return "denied 12"
    total = int.from_bytes(packet[2:4], "big")
    if not 4 * words <= total <= len(packet):
        return "denied 13"
    if folded(packet[:4 * words]) != 0xFFFF:
        return "denied 14"
    payload = packet[4 * words:total]
    parts = ["packet", str(ipaddress.IPv4Address(packet[12:16])), str(ipaddress.IPv4Address(packet[16:20])),
             "protocol", str(packet[9]), "payload", str(len(payload))]
    if packet[9] in (6, 17) and len(payload) >= 4:
        parts += ["ports", str(int.from_bytes(payload[:2], "big")), str(int.from_bytes(payload[2:4], "big"))]
    return " ".join(parts)


def lines(data):
    at = 0
    for _ in range(65536):
        if at == len(data):
            return
        length = int.from_bytes(data[at + 2:at + 4], "big")
        if len(data) - at >= 4 and length > 1500:
            yield "long"
            return
        if len(data) - at < 4 + length or len(data) - at < 4:
            yield "short"
            return
        yield line(data[at + 4:at + 4 + length])
        at += 4 + length


def main():
    for text in lines(sys.stdin.buffer.read()):
        sys.stdout.buffer.write(text.encode() + b"\n")


main()
