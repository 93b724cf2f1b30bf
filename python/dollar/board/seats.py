"""Who may join a class: seats, the names and words by which pupils have them, and what holds against those who ask too much."""
from __future__ import annotations

import asyncio
import math
import re
import secrets
import time
import unicodedata
from typing import Any, Counter

from dollar.board.server import LETTERS, Nothing, Refused, new_secret, same
from dollar.board.texts import t

MOST_NAME, MOST_PEERS = 24, 1000
# After so many seconds somebody else may have a seat that nobody has used, and after fewer if its page was never opened.
UNUSED, UNOPENED = 60.0, 5.0
# A seat may play so many lines at once, and then so many in a second; so many of its lines wait.
AT_ONCE, IN_A_SECOND, MOST_WAITING = 60, 10.0, 4
# How many wrong codes and words, and new seats, one address, behind which a school may be, has at once, and then in a second; and how many
# seats all have. Wrong codes of some addresses do not keep others out.
TRIES, SEATS = ((40, 2.0),), ((40, 0.5), (64, 8.0))
# How long the word of a seat is, and its letters, of which no other words are made.
WORD, CONSONANTS, JOINER = 4, re.sub("[aeiou]", "", LETTERS), "\u200d"
# Letters that look like nothing, and a row of marks on a letter of which three are enough.
UNSEEN, MARKS = "\u115f\u1160\u2800\u3164\uffa0", re.compile("([\u0300-\u036f]{3})[\u0300-\u036f]+")
# Letters of other scripts that look like those of Latin.
ALIKE = str.maketrans("асеорхуіјѕһԁьвмнктαοικνρτυ", "aceopxyijshdbbmhktaoikvptu")


class Bucket:
    """Permits so many acts at once, and then so many in a second."""

    def __init__(self, most: float, each: float) -> None:
        self.most, self.each, self.left, self.filled = most, each, float(most), time.monotonic()

    def takes(self, count: int = 1) -> bool:
        """Whether there is one more; if so, takes so many."""
        now = time.monotonic()
        self.left, self.filled = min(self.most, self.left + (now - self.filled) * self.each), now
        has = self.left >= 1
        self.left -= count if has else 0
        return has


class Limit:
    """A bucket for each address of the network, beside a wide one for all, if there is one."""

    def __init__(self, own: tuple[int, float], whole: tuple[float, float] = (math.inf, 0.0)) -> None:
        self.own, self.whole = own, Bucket(*whole)
        self.buckets: dict[str, Bucket] = {}

    def takes(self, peer: str, count: int = 1) -> bool:
        """Whether there is one more for an address; if so, takes so many."""
        if peer not in self.buckets and len(self.buckets) >= MOST_PEERS:
            self.buckets.pop(next(iter(self.buckets)))
        bucket = self.buckets.setdefault(peer, Bucket(*self.own))
        return bucket.takes(0) and self.whole.takes(count) and bucket.takes(count)


class Seat:
    """A seat that somebody has: the key that only that pupil's page knows, the name, the browser, the word by which the pupil comes back
    from another device, and the page that is open on it."""

    def __init__(self, number: int, name: str, browser: str | None = None, key: str | None = None, word: str | None = None) -> None:
        self.number, self.name, self.browser, self.key = number, name, browser, key or new_secret()
        self.word = word or "".join(secrets.choice(CONSONANTS) for _ in range(WORD))
        self.page: Follower | None = None
        self.played, self.waiting, self.seen, self.opened, self.asks = 0, 0, time.monotonic(), False, False
        self.bucket = Bucket(AT_ONCE, IN_A_SECOND)

    def takes(self) -> bool:
        """Whether the seat may play a line now."""
        return self.waiting < MOST_WAITING and self.bucket.takes()

    def kept(self) -> list[Any]:
        return [self.number, self.name, self.browser, self.key, self.word]

    def told(self) -> dict[str, Any]:
        """What its owner's page knows of it."""
        return {"seat": self.number, "key": self.key, "name": self.name, "word": self.word}


class Follower:
    """A page that follows what goes on. It sleeps until there is something to tell it, or it has gone, or it is ended by a word."""

    def __init__(self, gone: asyncio.Future[Any]) -> None:
        self.gone, self.word, self.is_due, self.woken = gone, "", False, asyncio.Event()
        gone.add_done_callback(lambda _: self.woken.set())

    def goes_on(self) -> bool:
        return not self.word and not self.gone.done()

    async def sleep(self) -> None:
        self.woken.clear()
        await self.woken.wait()

    def end(self, word: str) -> None:
        self.word = self.word or word
        self.woken.set()


def clean(name: str) -> str:
    """A name as it is shown: what can be seen of it, and the letter that joins others to one sign, on one line, with few marks on a letter."""
    shown = "".join(letter if (letter.isprintable() and letter not in UNSEEN) or letter == JOINER else " " if letter.isspace() else ""
                    for letter in name)
    return MARKS.sub(r"\1", " ".join(shown.split()))[:MOST_NAME].strip()


def seen(name: str) -> str:
    """What eyes tell apart in a name."""
    return re.sub("[%s\ufe00-\ufe0f]" % JOINER, "", unicodedata.normalize("NFKC", name)).casefold().translate(ALIKE)


def owner_of(browser: str | None) -> str | None:
    """The browser to which a name of one belongs: on a shared laptop each of its pupils has a name of it, with an own end after a dot."""
    return browser and browser.partition(".")[0]


class Seats:
    """The seats of a class, at most so many: who has one, and who may take one."""

    def __init__(self, most: int, kept: dict[str, Any]) -> None:
        # The teacher may have made them more.
        self.most = max(most, kept.get("most", 0))
        self.is_open, self.barred = kept.get("open", True), set(kept.get("barred", ()))
        self.joins, self.tries = Limit(*SEATS), Limit(*TRIES)
        self.taken = {number: Seat(number, *rest) for number, *rest in kept.get("seats", ()) if number <= self.most}
        # Who had a seat before an accident keeps it.
        for seat in self.taken.values():
            seat.played = 1

    def kept(self) -> dict[str, Any]:
        return {"open": self.is_open, "barred": sorted(self.barred), "most": self.most, "seats": [seat.kept() for seat in self.taken.values()]}

    def of(self, key: str) -> Seat:
        """The seat of a key."""
        found = next((seat for seat in self.taken.values() if same(key, seat.key)), None)
        if found is None:
            raise Nothing
        found.seen = time.monotonic()
        return found

    def join(self, name: str, browser: str | None, peer: str, used: Counter[int]) -> tuple[Seat, bool]:
        """A seat, and whether it is a new one: the free one that was used least, so that nobody finds the look of another on it. A browser
        that has a seat keeps it."""
        if owner_of(browser) in self.barred:
            raise Refused(409, t("seat.barred"))
        own = next((seat for seat in self.taken.values() if browser and seat.browser == browser), None)
        if own:
            return own, False
        number = self.free_number(used)
        named = self.name_for(name, number)
        if not self.joins.takes(peer):
            raise Refused(429, t("seat.many"))
        self.taken[number] = Seat(number, named, browser)
        return self.taken[number], True

    def away(self, name: str) -> Seat | None:
        """The seat of somebody with this name whose page is not open now."""
        wanted = seen(clean(name))
        return next((seat for seat in self.taken.values() if wanted and seen(seat.name) == wanted and not seat.page), None)

    def back(self, name: str, word: str, peer: str) -> Seat:
        """The seat of a name with its word. Few wrong words are looked at, as wrong codes."""
        if not self.tries.takes(peer, 0):
            raise Refused(429, t("seat.fast"))
        wanted = seen(clean(name))
        found = next((seat for seat in self.taken.values() if seen(seat.name) == wanted and same(word.strip(), seat.word)), None)
        if found is None:
            self.tries.takes(peer)
            raise Refused(409, t("seat.no-word"))
        found.seen = time.monotonic()
        return found

    def name_for(self, wanted: str, number: int) -> str:
        """A name for a seat: a second Anna is Anna 2. Raises Refused if nobody can see it."""
        name, others = clean(wanted), {seen(seat.name) for seat in self.taken.values() if seat.number != number}
        if wanted.strip() and not any(unicodedata.category(letter)[0] in "LNPS" for letter in name):
            raise Refused(409, t("seat.unseen"))
        named = [name or t("said.seat", number), *("%s %d" % (name[:MOST_NAME - 3], count) for count in range(2, self.most + 2))]
        return next(each for each in named if seen(each) not in others)

    def rename(self, seat: Seat, wanted: str) -> None:
        if not seat.bucket.takes():
            raise Refused(429, t("seat.fast"))
        seat.name = self.name_for(wanted, seat.number)

    def free_number(self, used: Counter[int]) -> int:
        """The number of a free seat, or else of one that nobody has used for a while."""
        if not self.is_open:
            raise Refused(409, t("seat.shut"))
        free = [number for number in range(1, self.most + 1) if number not in self.taken]
        if not free:
            now = time.monotonic()
            idle = [seat for seat in self.taken.values()
                    if not seat.page and not seat.played and seat.seen < now - (UNUSED if seat.opened else UNOPENED)]
            if not idle:
                raise Refused(409, t("seat.full", self.most))
            free = [idle[0].number]
        return min(free, key=lambda number: (used[number], number))

    def free(self, number: Any, bar: bool) -> Seat:
        """Takes a seat from who has it, and maybe lets the browser have no other."""
        seat = self.taken.pop(number, None) if type(number) is int else None
        if seat is None:
            raise Refused(409, t("seat.nobody"))
        if bar and seat.browser:
            self.barred.add(owner_of(seat.browser))
        if seat.page:
            seat.page.end("freed")
        return seat
