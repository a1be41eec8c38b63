"""What a reply may say of a member zone: what its catalog and its primary gave, in their order."""
import struct
from dataclasses import dataclass, field

import wire

REFUSED, WAITING = "refused", "waiting"


class Wrong(Exception):
    """A reply that no order of taken versions gives."""


@dataclass
class Member:
    """A zone with its way through the catalog: for each change there whether it was a member, and anew (a number)."""
    zone: object
    catalog: object
    label: str = ""
    stays: list = field(default_factory=lambda: [None])  # a number for each incarnation, None while it is no member


@dataclass
class Cursor:
    """How far one reader has seen a member's story: the earliest place that its replies so far allow."""
    member: Member
    stay: int = 0
    serial: int = 0
    is_served: bool = False  # whether a version was seen in this stay

    def see(self, said):
        """Goes on to a reply: REFUSED, WAITING or a serial."""
        stays = self.member.stays
        if said == REFUSED:
            self.go_on(lambda stay: stay is None)
        elif said == WAITING:
            if stays[self.stay] is None or self.is_served:
                self.go_on(lambda stay: stay is not None, 1)
        else:
            if not self.serial <= said <= self.member.zone.serial:
                raise Wrong(f"{self.member.zone.apex}: serial {said} after {self.serial} "
                            f"of {self.member.zone.serial} versions")
            if stays[self.stay] is None:
                self.go_on(lambda stay: stay is not None)
            self.serial, self.is_served = said, True

    def go_on(self, is_right, least=0):
        """To the first stay from here on, or after it, that is right."""
        stays = self.member.stays
        for place in range(self.stay + least, len(stays)):
            if is_right(stays[place]):
                self.is_served = self.is_served and place == self.stay
                self.stay = place
                return
        raise Wrong(f"{self.member.zone.apex}: no such reply can come after stay {self.stay} of {stays}")


def serials(message):
    """The serials that the records of a reply tell: TXT records hold theirs."""
    for record in message.answer + message.authority:
        if record.kind == wire.TXT:
            yield int(record.rdata[1:])
        elif record.kind == wire.SOA:
            yield struct.unpack(">I", record.rdata[-20:-16])[0]


def said_by(message):
    """What a reply says of its zone."""
    if message.code == wire.REFUSED:
        return REFUSED
    if message.code == wire.SERVFAIL:
        return WAITING
    told = set(serials(message))
    if message.code not in (wire.NOERROR, wire.NXDOMAIN) or len(told) != 1:
        raise Wrong(f"code {message.code} with serials {told}")
    return told.pop()
