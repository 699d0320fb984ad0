"""A sender, and a receiver in a thread of its own that learns how many values it missed."""
import threading

from topichub import Broadcast, Closed, Lagged


def count(receiver):
    """Prints how many values came or were missed, until no sender is left. In a task it is `await receiver.recv_async()`."""
    came = missed = 0
    while True:
        try:
            receiver.recv()
            came += 1
        except Lagged as lag:
            missed += lag.count
        except Closed:
            print(came + missed, "values in all")
            return


with Broadcast(4) as news:
    counting = threading.Thread(target=count, args=[news.subscribe()])
    counting.start()
    for value in range(100):
        news.send(value)
counting.join()
