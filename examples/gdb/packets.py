#!/usr/bin/env python3
# Sends packets of gdb's remote protocol to tools/gdb, a line each, and writes each with its answer: it needs no gdb.
# usage: packets.py APP SCRIPT < PACKETS
import os, subprocess, sys
bridge = subprocess.Popen(["tools/gdb", "--pipe", *sys.argv[1:]], stdin=subprocess.PIPE, stdout=subprocess.PIPE)
held = b""
def take():
    global held
    while held.count(b"#") < 1 or len(held) < held.index(b"#") + 3:
        more = os.read(bridge.stdout.fileno(), 65536)
        if not more:
            sys.exit("the bridge has ended")
        held += more
    end = held.index(b"#") + 3
    packet, held = held[:end].lstrip(b"+"), held[end:]
    assert packet[:1] == b"$" and int(packet[-2:], 16) == sum(packet[1:-3]) & 255, packet
    return packet[1:-3].decode()
for packet in sys.stdin.read().splitlines():
    bridge.stdin.write(b"$%s#%02x" % (packet.encode(), sum(packet.encode()) & 255))
    bridge.stdin.flush()
    print(">", bytes.fromhex(packet[6:]).decode() if packet.startswith("qRcmd,") else packet)
    while True:
        answer = take()
        told = answer[:1] == "O" and answer != "OK"
        print("<", bytes.fromhex(answer[1:]).decode().rstrip() if told else answer)
        if not told:
            break
bridge.stdin.close()
bridge.wait()
