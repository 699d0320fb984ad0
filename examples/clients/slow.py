#!/usr/bin/env python3
"""A slow subscriber: it looks only when ten news items have been sent, and the topic keeps four of them."""
from hub import session, until
from topichub import Closed, Lagged, commands

with session(__doc__) as hub:
    until(hub, commands.subscribe("news"), True)
    until(hub, commands.left("news"), 10)  # it has other work to do meanwhile
    while True:
        try:
            print(hub.ask(commands.recv("news")).decode())  # waits if there is nothing yet
        except Lagged as lag:
            print("missed", lag.count, "and continues with the oldest item that is kept")
        except Closed:
            print("closed")
            break
    hub.ask(commands.quit_session())
