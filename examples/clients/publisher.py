#!/usr/bin/env python3
"""Publishes ten news items, too fast for a slow subscriber, and settings, each of which the watcher has to confirm."""
from hub import session, until
from topichub import commands

with session(__doc__) as hub:
    for command in (commands.open_broadcast("applied", 16), commands.subscribe("applied"),
                    commands.open_broadcast("news", 4), commands.bind("news"),
                    commands.open_watch("settings", "volume=3"), commands.bind("settings")):
        hub.ask(command)
    for topic in ("news", "settings"):
        until(hub, commands.receiver_count(topic), 1)
    print("both are here")

    # Sent ahead: ten commands are on their way before the first reply is read.
    counts = hub.ask_all(commands.send("news", f"item {number}") for number in range(1, 11))
    print("receivers of each item:", counts)

    print("confirmed:", hub.ask(commands.recv("applied")).decode())  # the watcher has seen the first value
    for volume in (5, 7):
        hub.ask(commands.send("settings", f"volume={volume}"))
        print("confirmed:", hub.ask(commands.recv("applied")).decode())

    # A topic is closed once it has no sender: neither the hub's own nor ours.
    for topic in ("news", "settings"):
        hub.ask(commands.end(topic))
        hub.ask(commands.unbind(topic))
    hub.ask(commands.quit_session())
