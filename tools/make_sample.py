#!/usr/bin/env python3
"""Writes the sample input of the program: packets that scapy builds, each as an item.

usage: make_sample.py > crates/mangertick/stdin     (needs python3-scapy; the same bytes every time)
An item is a socket and a length, 16 bits each, most significant byte first, and then the packet.
"""
import struct
import sys

from scapy.all import DNS, DNSQR, ICMP, IP, TCP, UDP, Raw
from scapy.layers.inet import IPOption_RR, IPOption_Router_Alert


def packets():
    """Each packet with the socket that it comes in by."""
    question = IP(src="192.0.2.53", dst="198.51.100.5", id=1, ttl=64) / UDP(sport=40000, dport=53)
    yield 0x0041, bytes(question / DNS(id=7, rd=1, qd=DNSQR(qname="example.org")))
    opening = IP(src="203.0.113.9", dst="198.51.100.80", id=2, flags="DF") / TCP(
        sport=51515, dport=443, seq=1000, flags="S", window=64240,
        options=[("MSS", 1460), ("SAckOK", b""), ("Timestamp", (123456, 0)), ("NOP", None), ("WScale", 7)])
    yield 0x1042, bytes(opening)
    yield 0xF7DF, bytes(IP(src="10.1.2.3", dst="255.255.255.255", id=3, ttl=1) / ICMP(id=9, seq=1) / Raw(b"echo of 32 bytes, no ports there"))
    # a header of six words, and one of fifteen
    yield 0x0000, bytes(IP(src="172.16.0.1", dst="224.0.0.22", id=4, proto=2, options=[IPOption_Router_Alert()]) / Raw(bytes.fromhex("2200f9fd0000000104000000e0000016")))
    route = IPOption_RR(length=39, pointer=4, routers=["0.0.0.0"] * 9)
    yield 0xFFFF, bytes(IP(src="192.0.2.1", dst="192.0.2.254", id=5, options=[route]) / UDP(sport=7, dport=9) / Raw(b"far"))
    # an empty payload, three bytes where ports would stand, and four
    for payload in (b"", b"abc", bytes.fromhex("0035ffff")):
        yield 0x0001, bytes(IP(src="0.0.0.0", dst="128.0.0.1", id=6, proto=17) / Raw(payload))
    # bytes behind the total length
    yield 0x0002, bytes(IP(src="192.0.2.7", dst="198.51.100.7", id=7) / UDP(sport=1, dport=65535) / Raw(b"inside")) + b"\0" * 10
    # the longest packet of an item
    yield 0x0003, bytes(IP(src="192.0.2.8", dst="198.51.100.8", id=8) / TCP(sport=80, dport=5000, flags="A") / Raw(b"x" * 1460))
    # a wrong checksum, version 6, four words of header, a total length below the header and above the bytes, 19 bytes, none
    sound = IP(src="192.0.2.9", dst="198.51.100.9", id=9) / UDP(sport=2, dport=3)
    right = IP(bytes(sound)).chksum
    yield 0x0004, bytes(IP(src="192.0.2.9", dst="198.51.100.9", id=9, chksum=right ^ 1) / UDP(sport=2, dport=3))
    yield 0x0005, bytes(IP(src="192.0.2.9", dst="198.51.100.9", version=6) / UDP(sport=2, dport=3))
    yield 0x0006, bytes(IP(src="192.0.2.9", dst="198.51.100.9", ihl=4) / UDP(sport=2, dport=3))
    yield 0x0007, bytes(IP(src="192.0.2.9", dst="198.51.100.9", len=19) / UDP(sport=2, dport=3))
    yield 0x0008, bytes(IP(src="192.0.2.9", dst="198.51.100.9", len=29) / UDP(sport=2, dport=3))
    yield 0x0009, bytes(sound)[:19]
    yield 0x000A, b""
    # and a good one again
    yield 0x0041, bytes(IP(src="198.51.100.5", dst="192.0.2.53", id=10) / UDP(sport=53, dport=40000) / Raw(b"answer"))


def main():
    out = sys.stdout.buffer
    for socket, packet in packets():
        out.write(struct.pack(">HH", socket, len(packet)) + packet)


main()
