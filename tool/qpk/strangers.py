"""Packets of connections that began before a capture: each secret of the key log is tried. qpk-capture reads it."""

from typing import Dict, List, Optional, Set, Tuple

from qpk.connections import Kept, Pair
from qpk.keys import VERSIONS, KeyLog, Keys, keys_of
from qpk.quic import LONGEST_ID

MOST_KEPT = 1 << 24  # bytes of packets that are kept until there are keys for them
MOST_STRANGERS = 1 << 12  # pairs of addresses whose packets are kept so
MOST_TRIES = 1 << 17  # of keys, ends and numbers of packets in a capture, where none is known
TRIES_OF_KEYS = 16  # as many tries as making keys takes
ENOUGH = 8  # short packets between two addresses that tell the length of their connection ID


class Room:
    """How many bytes are kept of a capture, and how much was tried."""

    def __init__(self) -> None:
        self.kept_bytes = 0
        self.tries = 0

    def keep(self, to: List[Kept], kept: Kept) -> bool:
        """Keeps a packet until there are keys, if there is room, and returns whether it does."""
        size = len(kept.datagram.data)
        if self.kept_bytes + size > MOST_KEPT:
            return False
        self.kept_bytes += size
        to.append(kept)
        return True

    def release(self, kept: List[Kept]) -> None:
        """Notes that packets are kept no more."""
        self.kept_bytes -= sum(len(it.datagram.data) for it in kept)

    def may_try(self, tries: int = 1) -> bool:
        """Counts tries, and returns whether there are any left."""
        self.tries += tries
        return self.tries <= MOST_TRIES


class Found:
    """The keys that open a packet of no known connection, whose they are, and the packet's connection ID."""

    def __init__(self, random: str, mark: str, keys: Keys, target: bytes) -> None:
        self.random, self.mark, self.keys, self.target = random, mark, keys, target


class Strangers:
    """The short packets of no known connection, by their addresses."""

    def __init__(self, log: KeyLog, room: Room) -> None:
        self.log, self.room = log, room
        self.kept: Dict[Pair, List[Kept]] = {}
        self.hopeless: Set[Pair] = set()  # whose packets no key opens

    def meet(self, pair: Pair, kept: Kept) -> bool:
        """Keeps a packet, and returns whether there are enough now to look for their keys."""
        is_known = pair in self.kept or len(self.kept) < MOST_STRANGERS
        if pair in self.hopeless or kept.datagram.is_short or not is_known:
            return False
        strangers = self.kept.setdefault(pair, [])
        return self.room.keep(strangers, kept) and len(strangers) % ENOUGH == 0

    def forget(self, pair: Pair) -> List[Kept]:
        """Returns the packets that were kept between two addresses, and keeps them no more."""
        kept = self.kept.pop(pair, [])
        self.room.release(kept)
        return kept

    def give_up(self, pair: Pair) -> None:
        """Forgets packets whose keys are not found, if there were enough, or nothing more is tried."""
        if len(self.kept[pair]) > ENOUGH or self.room.tries > MOST_TRIES:
            self.forget(pair)
            if len(self.hopeless) < MOST_STRANGERS:
                self.hopeless.add(pair)

    def find(self, pair: Pair, own: Optional[Tuple[str, str]]) -> Optional[Found]:
        """Returns the keys of the packets between two addresses, if a secret gives them.

        The client's random and the mark of the sender may be known.
        """
        kept = self.kept[pair]
        for random in [own[0]] if own else list(self.log.secrets):
            for mark in own[1] if own else "><":
                found = self.try_secret(random, mark, kept) if self.room.tries <= MOST_TRIES else None
                if found:
                    return found
        return None

    def try_secret(self, random: str, mark: str, kept: List[Kept]) -> Optional[Found]:
        """Returns the keys that a secret gives, if they open one of some packets."""
        secret = self.log.secret_of(random, mark)
        if secret is None:
            return None
        length = min(common_length([it.datagram.data[1:] for it in kept]), LONGEST_ID)
        least = max(length - 1, 0) if len(kept) >= ENOUGH else 0
        for keys in keys_of(secret, VERSIONS.values()):
            self.room.may_try(TRIES_OF_KEYS)
            for it in kept:
                for size in range(length, least - 1, -1):
                    for packet in keys.search(it.datagram.data, 0, 1 + size):
                        if packet:
                            return Found(random, mark, keys, it.datagram.data[1 : 1 + size])
                        if not self.room.may_try():
                            return None
        return None


def common_length(parts: List[bytes]) -> int:
    """Returns how many first bytes all of some have in common. One alone does not tell."""
    if len(parts) < 2:
        return LONGEST_ID
    first, last = min(parts), max(parts)
    return next((at for at, (one, other) in enumerate(zip(first, last)) if one != other), min(len(first), len(last)))
