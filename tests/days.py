#!/usr/bin/env python3
"""Feeds the built live_server as a server of many days would, and says whether its memory and its time stay as they were.

    tests/days.py LIVE_SERVER LIVE_CLIENT [STEPS [MOVES]]

A picture of 640 by 400 moves over a screen for MOVES frames, 1,500 where none is said; then it is painted 1,000 times at
one place while the client is silent; then small fills go, ten a frame, until STEPS steps were pushed, 1,000,000 where none
is said; then the picture moves again. In between the client is slow,
so that frames wait. Each program has 1,500 MB of addresses. More than 64 MB more than the server's end had after the
first frames is a failure, and so are frames that take more than twice the time of the first ones. At the end the screen
has to look as it should, and an idle server has to end at the best level, and then to send nothing. There is a line for
each part, and the exit number is 1 where one fails. It is no part of `rt ci`.
"""
import os, resource, struct, sys, time

sys.path.insert(0, os.path.join(os.path.dirname(os.path.realpath(__file__)), "..", "tools"))
from gfxtools.live import LiveClient, LiveServer, Turned

WIDTH, HEIGHT = 1280, 800
SIDES = (640, 400)
ADDRESSES = 1500 << 20
GROWTH = 64 << 20


def picture(number):
    """A picture that is other for each number, and never of one colour."""
    row = bytes((x * 3 + number * 7 + channel * 31) & 255 for x in range(SIDES[0]) for channel in range(4))
    rows = []
    for y in range(SIDES[1]):
        turn = (y * 8 + number * 16) % len(row) & ~3
        rows.append(row[turn:] + row[:turn])
    return b"".join(rows)


def resident(program):
    with open(f"/proc/{program.process.pid}/statm") as file:
        return int(file.read().split()[1]) * os.sysconf("SC_PAGE_SIZE")


class Session:
    """Both ends, joined here. The client answers at once, or only when it is told to."""

    def __init__(self, server, client):
        self.server, self.client = server, client
        self.held, self.sent, self.steps, self.shown = [], 0, 0, 0
        server.settle(window=2)
        self.answer(client.hello())

    def answer(self, data):
        taken = self.server.take(data)
        self.shown += len(taken.shown)
        self.draw(taken.data)

    def draw(self, data):
        at = 0
        while at < len(data):
            length = struct.unpack_from("<I", data, at)[0]
            message = data[at + 4:at + 4 + length]
            at += 4 + length
            self.sent += len(message)
            self.held.append(self.client.take(message).data)

    def acknowledge(self):
        held, self.held = self.held, []
        for data in held:
            if data:
                self.answer(data)

    def turns(self):
        """As many turns as do something."""
        while True:
            served = self.server.serve()
            self.draw(served.data)
            if served.turned != Turned.MOVED:
                return

    def frame(self, count, waits=False):
        self.server.frame()
        self.steps += count + 1
        self.turns()
        if not waits:
            self.acknowledge()
            self.turns()


def move(session, frames, pictures):
    """A picture moves; each fifth frame the client doesn't answer until the next."""
    began = time.time()
    for number in range(frames):
        x, y = number * 8 % (WIDTH - SIDES[0]), number * 4 % (HEIGHT - SIDES[1])
        session.server.paint(1, x, y, *SIDES, pictures[number % len(pictures)], "progressive" if number % 2 else "residual")
        session.frame(1, waits=number % 5 != 4)
    session.acknowledge()
    session.turns()
    return (time.time() - began) / frames


def main():
    limit = (ADDRESSES, ADDRESSES)
    steps = int(sys.argv[3]) if len(sys.argv) > 3 else 1000000
    moves = int(sys.argv[4]) if len(sys.argv) > 4 else 1500
    fine = True

    def say(what, good):
        nonlocal fine
        fine = fine and good
        print(f"{'ok' if good else 'WRONG'}: {what}", flush=True)

    pictures = [picture(number) for number in range(8)]
    with LiveServer(sys.argv[1]) as server, LiveClient(sys.argv[2]) as client:
        for program in (server, client):
            resource.prlimit(program.process.pid, resource.RLIMIT_AS, limit)
        session = Session(server, client)
        server.surface(1, WIDTH, HEIGHT)
        server.reset(WIDTH, HEIGHT)
        server.map(1, 0, 0)
        session.frame(3)
        move(session, 100, pictures)
        first, memory = move(session, moves, pictures), resident(server)
        say(f"{session.steps} steps, {moves} moves: {first * 1000:.2f} ms a frame, {memory >> 20} MB", True)
        for number in range(1000):
            server.paint(1, 100, 100, *SIDES, pictures[number % len(pictures)], "residual")
            session.frame(1, waits=True)
        now = resident(server)
        say(f"{session.steps} steps: 1,000 paints wait, {now >> 20} MB", now < memory + GROWTH)
        session.acknowledge()
        session.turns()
        began = time.time()
        while session.steps < steps:
            for at in range(10):
                x, y = (session.steps + at) * 7 % (WIDTH - 8), (session.steps + at * 3) % (HEIGHT - 8)
                server.fill(1, bytes([at * 20, session.steps & 255, session.steps >> 8 & 255, 255]), [(x, y, x + 8, y + 8)])
            session.frame(10)
        now = resident(server)
        say(f"{session.steps} steps: fills in {time.time() - began:.0f} s, {now >> 20} MB", now < memory + GROWTH)
        again, now = move(session, moves, pictures), resident(server)
        say(f"{session.steps} steps, {moves} moves: {again * 1000:.2f} ms a frame, {now >> 20} MB", again < 2 * first and now < memory + GROWTH)
        last = pictures[3]
        server.paint(1, 100, 100, *SIDES, last, "progressive")
        session.frame(1)
        improved = 0
        while server.improve_idle():
            improved += 1
            session.steps += 2
            session.turns()
            session.acknowledge()
            session.turns()
        sent = session.sent
        silent = not server.improve_idle() and server.serve().turned == Turned.ENDED and session.sent == sent
        say(f"{improved} improvements, and then nothing", improved > 0 and silent)
        shown = client.picture((100, 100, 100 + SIDES[0], 100 + SIDES[1]))
        worst = max(abs(a - b) for at in range(3) for a, b in zip(shown[at::4], last[at::4]))
        say(f"at the best level a colour is off by {worst} at most", worst <= 8)
        say(f"{session.shown} frames were acknowledged, {session.sent >> 20} MB sent, nothing waits", server.steps_behind() == 0)
    sys.exit(0 if fine else 1)


main()
