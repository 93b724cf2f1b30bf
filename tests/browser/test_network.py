"""A class on a network that forgets connections without a word, and on computers with several addresses."""
import contextlib
import itertools
import os
import re
import shutil
import socket
import subprocess
import tempfile
import threading
import unittest

from browser import READY, Page, at, needed
from common import EXAMPLES, PATIENCE, PLAY, played
from firefox import in_both
from helpers import equal, expect, tests_of
from visitors import PagePupil, Place, Pupil, taken


class Network:
    """What lies between pages and a server. Whenever its age grows it forgets its connections: they stay open, and nothing comes."""

    def __init__(self):
        self.listener, self.age = socket.create_server(("127.0.0.1", 0), backlog=64), 0
        with socket.create_server(("127.0.0.1", 0)) as free:
            self.port, self.to = (each.getsockname()[1] for each in (self.listener, free))
        threading.Thread(target=self.run, daemon=True).start()

    def run(self):
        while True:
            page = self.listener.accept()[0]
            try:
                server = socket.create_connection(("127.0.0.1", self.to))
            except ConnectionRefusedError:
                # The server is down, or not up again.
                page.close()
                continue
            for one, other in (page, server), (server, page):
                threading.Thread(target=self.carry, args=[self.age, one, other], daemon=True).start()

    def carry(self, age, one, other):
        with contextlib.suppress(OSError):
            data = True
            while data:
                data = one.recv(1 << 16)
                if self.age == age:
                    other.sendall(data) if data else other.shutdown(socket.SHUT_WR)


def dying_connections(folder, browsers):
    """Connections die: all that is played is drawn, in its order, on the pupil's page and on the wall."""
    one, two, _ = browsers
    network = Network()
    words = EXAMPLES / "houses.json", "--class", "4", "--port", str(network.to), "--name", f"127.0.0.1:{network.port}"
    with played(*words) as (_, (pupils, teacher)):
        ann, wall = PagePupil(one, pupils, "Ann", folder), Page(two, pupils, os.path.join(folder, "wall"))
        wall.click("#watch")
        wall.until("state !== null")
        other = Pupil(pupils, "other", events=False)
        ann.click(at("cyd"))
        ann.has(1)
        network.age += 1
        for name in "bob", "cyd", "dan":
            ann.click(at(name))
        ann.has(4)
        # The computer's clock is set back an hour, and the connections die.
        for page in ann, wall:
            page.value("((real) => { Date.now = () => real() - 3600000; })(Date.now)")
        network.age += 1
        other.play("borrow cyd")
        for page in ann, wall:
            page.has(5)
            page.until("$('#notice').hidden")
        ann.value("for (let i = 0; i < 40; i++) play(`${i % 3 ? 'lend' : 'borrow'} ${'abcd'[i % 4]}${['nn', 'ob', 'yd', 'an'][i % 4]}`)")
        ann.has(45)
        steps, history = taken(Place(teacher), folder)
        wanted = [f"{'lend' if i % 3 else 'borrow'} {('ann', 'bob', 'cyd', 'dan')[i % 4]}" for i in range(40)]
        equal([step.split(" ", 1)[1] for step in steps], ["lend cyd", "lend bob", "lend cyd", "lend dan", "borrow cyd", *wanted], "the steps")
        for page in ann, wall:
            page.has(45)
            equal(page.value("viewer.game.replies.map(({ line }) => line)"), history, "what a page has drawn")
        equal(ann.value("[state.names[me.seat].here, $('#refused').hidden]"), [True, True], "who is here, and what is refused")
        with socket.create_server(("127.0.0.1", 0)) as silent:
            real, network.to, network.age = network.to, silent.getsockname()[1], network.age + 1
            ann.click(at("cyd"))
            ann.click(at("cyd"))
            ann.until("$('#refused').textContent.includes('Later clicks were not.') && !$('#notice').hidden")
            ann.click(at("cyd"))
            ann.until("$('#refused').textContent.includes('has lost touch with the game for a moment.')")
            network.to = real
        ann.until("$('#notice').hidden && link.hears")
        ann.click(at("cyd"))
        for page in ann, wall:
            page.has(46)
            page.harmless(Place(pupils).origin)


CARD = "ip link add {0} type {1} && ip addr add {2} dev {0} && ip link set {0} up"
OWN, OPEN = CARD.format("class", "veth", "10.5.0.7/24"), "can be opened from other machines of this network."
MORE = [CARD.format("docker0", "bridge", "172.17.0.1/16"), CARD.format("stick", "veth", "172.31.9.9/24"), "ip route add default via 172.31.9.1"]
COMPUTERS = [("in no network", [], ["127.0.0.1"], "can be opened on this machine alone."),
             ("with a network of the class's own, which leads nowhere", [OWN], ["10.5.0.7"], OPEN),
             ("with a stick that leads to the internet as well, and a bridge", [*MORE, OWN], ["10.5.0.7", "172.31.9.9", "172.17.0.1"], OPEN)]


def computers(folder):
    """The likeliest address of a computer is shown and the others are told, whatever networks it is in."""
    apart = ["unshare", "-rn", "sh", "-ec"]
    if not shutil.which("ip") or subprocess.run([*apart, OWN], capture_output=True).returncode:
        raise unittest.SkipTest("the addresses of other computers, for want of network namespaces")
    for what, cards, (first, *others), words in COMPUTERS:
        given = [*PLAY, EXAMPLES / "houses.json", "--class", "2", "--host", "0.0.0.0", "--port", "4000"]
        child = subprocess.Popen([*apart, "\n".join(["ip link set lo up", *cards, 'exec "$@"']), "sh", *given], stdin=subprocess.DEVNULL,
                                 stdout=subprocess.PIPE, text=True)
        said = "".join(itertools.takewhile(lambda line: "ends it" not in line, child.stdout))
        child.terminate()
        equal(child.wait(PATIENCE), 0, f"the end on a computer {what}")
        told = f"Other addresses:   {', '.join(f'{each}:4000' for each in others)}. The teacher's page can choose."
        expect(words in said and [Place(each).host for each in re.findall(r"http://\S+", said)] == [first, first], f"a computer {what}: {said}")
        expect(told in said if others else "Other" not in said, f"the other addresses of a computer {what}: {said}")


def shared_laptop(folder):
    """In a class that goes on another day a laptop asks who is there."""
    one, *_ = needed()
    with played(EXAMPLES / "houses.json", "--class", "4", "--keep", os.path.join(folder, "kept")) as (_, (pupils, _)):
        ann = PagePupil(one, pupils, "Ann", folder)
        ann.click("#names button")
        ann.types("#your-name", "Anne")
        ann.click("#join button")
        ann.until("texts('#names li b').join() === 'Anne' && me.name === 'Anne' && $('#entrance').hidden")
        ann.visit(pupils, "me && state !== null")
        for name in "Bob", "Cem":
            ann.click("#names li button:last-child")
            ann.until(f"{READY} && me === null && !$('#known').hidden")
            ann.join(name, "Enter")
        ann.click("#names li:nth-child(3) button:last-child")
        ann.until(f"{READY} && me === null && texts('#known button').join() === 'Cem,Bob,Anne'")
        ann.click("#known button:last-child")
        ann.until("me.name === 'Anne' && state !== null && texts('#names li b').join() === 'Anne,Bob,Cem'")
        ann.click("#names li:nth-child(1) button:nth-of-type(2)")
        ann.answered(True)
        ann.told("Your seat was freed.")
        equal(ann.value("[me, texts('#known button')]"), [None, ["Cem", "Bob"]], "who is known after somebody left")
        one.harmless(pupils)


load_tests = tests_of(computers, shared_laptop, *in_both(dying_connections), given=tempfile.TemporaryDirectory)
