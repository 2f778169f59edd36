#!/usr/bin/env python3
"""What link_host must print, computed by the model of docs/RULES.md, which shares no code with the part.

    python3 tools/host_story.py > crates/link_host/stdout
"""
from link_model import Cache, Ccm, Gate, Turning, TwoGenerations

SECOND = 10**9
HOUR = 3600 * SECOND
START = 1_700_000_000 * SECOND
TWO_WEEKS = 14 * 24 * HOUR
IP = bytes([192, 0, 2, 7])
DESTINATION = bytes.fromhex("c0ffee01")
NAME = "unit-4.quay"
CAUSES = {13: "the log has it, or may have it", 20: "no token", 24: "a validation token out of date"}
LIMIT = "the unit keeps to three times what it receives"


class Story:
    def __init__(self):
        log = TwoGenerations(Turning(48, 3), Turning(48, 3))
        self.gate = Gate(Ccm(b"the thirty-two bytes of a secret"), log, 15 * SECOND, TWO_WEEKS)
        self.cache, self.drawn = Cache(4, 2), 0

    def draw(self):
        self.drawn += 1
        return self.drawn

    def turn_back(self, port, clock):
        low = self.draw()
        said, slip = self.gate.arrive(b"", DESTINATION, IP, port, clock, 96)
        token = self.gate.retry(slip, low, 0, clock, 81, 96)
        print(f"  It brings no token ({said.split()[1]}): the unit answers by a retry token of {len(token)} bytes.")
        return token

    def give(self, clock):
        token = self.gate.issue(self.draw(), 0, IP, clock, 81, 96)
        print(f"  The unit gives the cab a token of {len(token)} bytes.")
        return token

    def meet(self, token, port, clock):
        words = self.gate.arrive(token, DESTINATION, IP, port, clock, 96)[0].split()
        if words[0] == "unvalidated":
            cause = int(words[1])
            print(f"  The token of {len(token)} bytes is not honoured (cause {cause}: {CAUSES[cause]}): {LIMIT}.")
        elif words[3] == "none":
            print(f"  The token of {len(token)} bytes is honoured: the unit streams freely.")
        else:
            print(f"  The retry token of {len(token)} bytes validates the cab's address: the unit streams freely.")

    def keep(self, token):
        self.cache.insert(NAME, token)
        print(f"  The cab stores it under the name {NAME}.")

    def bring(self):
        token = self.cache.take(NAME, 512)
        print(f"  The cab takes a token of {len(token)} bytes from its store.")
        return token


def main():
    story = Story()
    print("The cab comes to the unit for the first time, from port 4433.")
    story.meet(story.turn_back(4433, START), 4433, START + SECOND)
    story.keep(story.give(START + SECOND))
    print("The cab changes its zone and comes back from port 50123.")
    token = story.bring()
    story.meet(token, 50123, START + 600 * SECOND)
    print("Somebody sends the same token again.")
    story.meet(token, 50123, START + 601 * SECOND)
    print("Five more rides on one day; the log's set is sure of three tokens.")
    for ride in range(1, 6):
        now = START + ride * HOUR
        story.keep(story.give(now))
        token = story.bring()
        story.meet(token, 50123, now + SECOND)
        story.meet(token, 50123, now + 2 * SECOND)
    print("Two weeks pass, and a period of the log with them.")
    now = START + TWO_WEEKS + HOUR
    story.meet(story.give(now), 50123, now + SECOND)
    print("Somebody sends a token of the last ride again, now and half a day later.")
    story.meet(token, 50123, now + 2 * SECOND)
    story.meet(token, 50123, now + 12 * HOUR)


main()
