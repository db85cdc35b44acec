"""Where a call may lack memory, and what it leaves then.

A call makes exchanges with nodes, one after another: it writes requests to the log, sends them, and
takes their replies. It may lack memory

    "call"    when it begins, and nothing was done
    "before"  before an exchange, of which nothing was done
    "logged"  when the requests are in the log and none of their bytes went out: the link stays open
    "sent"    when the bytes went out and the replies are not taken: the link is closed
    "taken"   when the replies were taken: the link is open, and the next reply is that to the next request

The call is refused then and does nothing more. The slot map stays, and so do all other links.

A pipeline that tells of each command is refused so when it begins alone. Then it may lack memory

    "sent"    when the bytes went out and the replies of a node are not taken: that link is closed
    "made"    when one value is made of the replies to a command's parts

and tells it of the commands that this concerns. All else goes on.
"""
from .combine import Refused

PLACES = ("before", "logged", "sent", "taken", "made")


class Memory:
    """Refuses at one place of one exchange of one call, both counted from 0; without a call, nowhere."""

    def __init__(self, call=None, exchange=-1, place="call"):
        self.wanted = call, exchange, place
        self.call = self.exchange = -1
        self.refused = False

    def begin_call(self):
        self.call += 1
        self.exchange = -1
        self.at("call")

    def begin_step(self):
        """What follows is counted as the next exchange, but is none that refuses the call."""
        self.exchange += 1

    def begin_exchange(self):
        self.exchange += 1
        self.at("before")

    def at(self, place):
        if (self.call, self.exchange, place) == self.wanted:
            self.refused = True
            raise Refused("Memory")
