"""What a reader of the package sees: names, pages, types, and the words of its errors."""
import asyncio
import inspect
import os
import pickle
import pydoc
import re
import socket
import subprocess
import sys

import pytest

import topichub
from topichub import (AsyncClient, Broadcast, ChannelError, Client, Closed, Lagged, NoReceivers, PartlySent, ProtocolError, Refused,
                      TooMany, Watch, answers, commands)
from topichub.commands import reply_of

from hubs import NEEDS_PROGRAM, standing

HERE = os.path.dirname(os.path.abspath(__file__))
README = os.path.join(HERE, "..", "README.md")
MODULES = [topichub, commands, answers, topichub.client, topichub.broadcast, topichub.watch]


def public():
    """Each public name of each module, and of each class, with what it stands for."""
    for module in MODULES:
        names = getattr(module, "__all__", [name for name in vars(module) if not name.startswith("_")])
        for name in names:
            found = getattr(module, name)
            if not getattr(found, "__module__", "").startswith("topichub") or inspect.ismodule(found):
                continue
            yield f"{module.__name__}.{name}", found
            if inspect.isclass(found):
                for part in dir(found):
                    its = inspect.getattr_static(found, part)
                    it = getattr(found, part)
                    if not part.startswith("_") and (callable(it) or isinstance(its, property)) and \
                            getattr(its, "__objclass__", None) is None and not hasattr(BaseException, part):
                        yield f"{module.__name__}.{name}.{part}", its if isinstance(its, property) else it


def test_each_public_name_has_a_text_and_its_types():
    names = dict(public())
    assert {"topichub.Client.ask", "topichub.AsyncClient.reconnect", "topichub.Watch.wait_closed", "topichub.commands.send",
            "topichub.Receiver.recv_many_async", "topichub.Client.given_up"} <= set(names)
    for name, it in names.items():
        if not (inspect.isclass(it) and issubclass(it, tuple)) and inspect.getmodule(it) is not None:
            assert inspect.getdoc(it), name
        function = it.fget if isinstance(it, property) else it
        if inspect.isfunction(function) or inspect.ismethod(function):
            signature = inspect.signature(function)
            assert signature.return_annotation is not inspect.Signature.empty, name
            assert all(word == "self" or its.annotation is not its.empty for word, its in signature.parameters.items()), name


def test_pydoc_shows_each_page():
    for module in MODULES:
        page = pydoc.plain(pydoc.render_doc(module))
        assert module.__doc__.splitlines()[0] in page
    page = pydoc.plain(pydoc.render_doc(topichub))
    for name in topichub.__all__:
        assert name in page


def test_all_that_waits_takes_a_limit():
    for it in (Client, AsyncClient.connect, Client.ask, Client.ask_all, Client.send, Client.answer, Client.reconnect, AsyncClient.ask,
               AsyncClient.ask_all, AsyncClient.reconnect, topichub.Receiver.recv, topichub.Receiver.recv_async,
               topichub.Receiver.recv_many, topichub.Receiver.recv_many_async, topichub.WatchReceiver.changed,
               topichub.WatchReceiver.changed_async, Watch.wait_closed, Watch.wait_closed_async):
        assert "timeout" in inspect.signature(it).parameters, it


def test_each_object_says_what_it_is():
    news, light = Broadcast(4), Watch("red")
    receiver, reader = news.subscribe(), light.subscribe()
    sender = news.clone()
    assert [repr(it) for it in (news, receiver, sender, light, reader)] == [
        "<Broadcast 1>", "<Receiver 2>", "<Broadcast 3>", "<Watch 1>", "<WatchReceiver 2>"]
    receiver.close()
    assert repr(receiver) == "<Receiver 2, closed>"
    assert repr(Broadcast.__new__(Broadcast)) == "<Broadcast 0, closed>"
    assert repr(commands.send("t", b"x")) == "Command(line=b'PUB t x', text=None)"
    assert repr(reply_of(b"VAL a b")) == "Reply(word=b'VAL', rest=b'a b', rows=())"


def test_a_client_says_where_it_is_connected(tmp_path):
    path = str(tmp_path / "hub")
    with socket.socket(socket.AF_UNIX) as server:
        server.bind(path)
        server.listen()
        with Client(path) as client:
            assert repr(client) == f"<Client {path!r}>"
        assert repr(client) == f"<Client {path!r}, ended>"

        async def run():
            async with await AsyncClient.connect(path) as client:
                before = repr(client)
            return before, repr(client)

        assert asyncio.run(run()) == (f"<AsyncClient {path!r}>", f"<AsyncClient {path!r}, ended>")


@pytest.mark.parametrize("code, name", [(11, "NoTopic"), (12, "TopicExists"), (13, "WrongKind"), (15, "AlreadyHeld"), (16, "NotHeld"),
                                        (18, "TopicClosed"), (19, "TooManyAtHub"), (24, "Busy"), (10, "Refused"), (99, "Refused")])
def test_the_refusals_have_names(code, name):
    with pytest.raises(Refused) as refused:
        commands.bind("t").answer(reply_of(b"ERR %d word" % code))
    assert (type(refused.value).__name__, refused.value.code, refused.value.word) == (name, code, "word")
    assert isinstance(refused.value, TooMany) == (code == 19)


def test_errors_survive_a_pickle():
    for fault in (Lagged(3), PartlySent(2), ProtocolError(b"PUB t x", b"VAL x"), answers.refusal(11, "no-topic"), Closed(), NoReceivers(),
                  TooMany(), answers.refusal(19, "too-many"), answers.MayHaveMissed()):
        again = pickle.loads(pickle.dumps(fault))
        assert (type(again), str(again), vars(again)) == (type(fault), str(fault), vars(fault))
        assert isinstance(again, ChannelError)


@pytest.fixture
def heard(tmp_path):
    """A client of each encoding, and the lines that come from it."""
    path = str(tmp_path / "hub")
    with socket.socket(socket.AF_UNIX) as server:
        server.bind(path)
        server.listen()

        def lines(encoding, *sent):
            with Client(path, encoding=encoding) as client, server.accept()[0] as connection:
                for it in sent:
                    client.send(it)
                client.close()
                return connection.makefile("rb").read().splitlines()

        yield lines


def test_a_client_with_an_encoding_sends_text(heard):
    sent = commands.send("t", "grün"), commands.open_watch("t", "rot"), commands.send_replace("t", b"\xff"), commands.edit_set("t", "é")
    assert heard("utf-8", *sent) == [b"PUB t gr\xc3\xbcn", b"OPEN t W rot", b"SWAP t \xff", b"EDIT t SET \xc3\xa9"]
    assert heard("latin-1", *sent) == [b"PUB t gr\xfcn", b"OPEN t W rot", b"SWAP t \xff", b"EDIT t SET \xe9"]


def test_a_client_without_an_encoding_refuses_text_and_says_what_to_do(heard):
    for it in (commands.send("t", "grün"), commands.open_watch("t", "x"), commands.edit_differ("t", "x"), commands.edit_quiet("t", "x")):
        with pytest.raises(TypeError, match=r"\.encode\(\).*encoding='utf-8'"):
            heard(None, it)


def test_text_that_is_no_value_is_refused(heard):
    for text in ("", "two\nlines", "é" * 513):
        with pytest.raises(ValueError):
            heard("utf-8", commands.send("t", text))
    with pytest.raises(UnicodeEncodeError):
        heard("ascii", commands.send("t", "é"))
    with pytest.raises(LookupError):
        heard("no-such-encoding")


def examples():
    """The examples of the README, each with what it prints."""
    with open(README, encoding="utf-8") as file:
        return re.findall(r"```python\n(.*?)```\n+```text\n(.*?)```", file.read(), re.DOTALL)


@NEEDS_PROGRAM
@pytest.mark.parametrize("number", range(3))
def test_the_examples_of_the_readme_run_as_printed_on_a_fresh_hub(number, tmp_path):
    assert len(examples()) == 3
    code, printed = examples()[number]
    with standing(str(tmp_path / "hub.socket")):
        environment = {**os.environ, "PYTHONPATH": os.path.join(HERE, ".."), "PYTHONDONTWRITEBYTECODE": "1"}
        ran = subprocess.run([sys.executable, "-c", code], cwd=tmp_path, env=environment, stdout=subprocess.PIPE, text=True, timeout=60)
    assert (ran.returncode, ran.stdout) == (0, printed)


@NEEDS_PROGRAM
def test_the_example_of_the_client_module_runs_as_printed_on_a_fresh_hub(tmp_path):
    code = "".join(line[4:] + "\n" for line in topichub.client.__doc__.splitlines() if line.startswith("    ") or not line)
    code = code[:code.index("print(") + 1].rpartition("\n")[0] + "\n" + next(it[4:] for it in topichub.client.__doc__.splitlines() if "print(" in it)
    with standing(str(tmp_path / "hub.socket")):
        environment = {**os.environ, "PYTHONPATH": os.path.join(HERE, ".."), "PYTHONDONTWRITEBYTECODE": "1"}
        ran = subprocess.run([sys.executable, "-c", code], cwd=tmp_path, env=environment, stdout=subprocess.PIPE, text=True, timeout=60)
    assert (ran.returncode, ran.stdout) == (0, "b'one'\n")
