#!/usr/bin/env python3
"""Watches settings: looks at the newest ones whenever they have changed, and reports which it has applied."""
from hub import session, until
from topichub import Closed, commands

with session(__doc__) as hub:
    until(hub, commands.subscribe("settings"), True)  # the last topic that is opened, so somebody receives on `applied`
    hub.ask(commands.bind("applied"))
    settings = hub.ask(commands.borrow("settings")).value
    print("at first:", settings.decode())
    hub.ask(commands.send("applied", settings))
    try:
        while hub.ask(commands.changed("settings")):  # waits for a change
            settings = hub.ask(commands.borrow("settings")).value
            print("now:", settings.decode())
            hub.ask(commands.send("applied", settings))
    except Closed:
        print("closed")
    hub.ask(commands.quit_session())
