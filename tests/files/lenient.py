"""States again which bytes of a damaged classic capture are packets. A packet is compared with what follows it."""
import re
import struct

LONGEST, DAY, BILLION = 262144, 86400, 10**9
# The longest packet that is usual on networks, and how many packets must stand behind one whose time is far from the one before.
USUAL, BEHIND = 1518, 3
# How many packets must follow each other by their lengths, and how many of those without a flaw behind corrupt bytes.
BY_LENGTH, BY_RULES = 4, 3
# How many bytes are searched at once, and the most bytes of four packets that break no rule.
WINDOW, ROW = 2097152, 4 * (16 + LONGEST)
STANDS, LENGTH, WRONG, SHORT = range(4)
MAGICS = {0xA1B2C3D4: 1000, 0xA1B23C4D: 1}
HEADERS = [struct.pack(order + "IHH", magic, 2, 4) for magic in MAGICS for order in "<>"]
# Where packets can go on at all: at a header, or at a head whose stored length is from 1 to a bit more than LONGEST. Python looks at no
# other offset by itself.
STORED = {"<": rb"(?!\0\0\0\0)..[\0-\4]\0", ">": rb"(?!\0\0\0\0)\0[\0-\4].."}
MAY_GO_ON = {order: re.compile(b"(?=" + b"|".join(map(re.escape, HEADERS)) + b"|.{8}" + it + b")", re.S) for order, it in STORED.items()}


class Head:
    """The four numbers of a packet's head."""

    def __init__(self, numbers):
        self.seconds, self.fraction, self.stored, self.wire = numbers

    def is_empty(self):
        return (self.stored, self.wire) == (0, 0)


class Reading:
    """A capture, and how the header in force reads it."""

    def __init__(self, capture, order, unit, snaplen=None):
        self.capture, self.order, self.unit = capture, order, unit
        snaplen = struct.unpack_from(order + "I", capture, 16)[0] if snaplen is None else snaplen
        self.limit = min(snaplen, LONGEST) if snaplen else LONGEST

    def head(self, at):
        return Head(struct.unpack_from(self.order + "IIII", self.capture, at)) if at + 16 <= len(self.capture) else None

    def begins_capture(self, at):
        return len(self.capture) - at >= 24 and self.capture[at : at + 8] in HEADERS

    def breaks_a_rule(self, head):
        return head.fraction * self.unit > 0xFFFFFFFF or head.stored > LONGEST or head.wire > LONGEST or head.stored > head.wire

    def is_row(self, at, time, count):
        """Returns whether this many plausible packets follow each other, or fewer, at least one, to the end."""
        for _ in range(count):
            head = self.head(at)
            if not head or self.breaks_a_rule(head) or not 0 < head.stored <= self.limit or head.fraction * self.unit >= BILLION:
                return False
            if head.seconds <= LONGEST if time is None else abs(time - head.seconds) > DAY:
                return False
            at, time = at + 16 + head.stored, head.seconds
            if at >= len(self.capture):
                return at == len(self.capture)
        return True

    def goes_on(self, at, time):
        return self.begins_capture(at) or self.is_row(at, time, 2) or self.is_row(at, None, 4)

    def first(self, start, end, time):
        """Returns the first offset in this range at which packets go on."""
        places = (it.start() for it in MAY_GO_ON[self.order].finditer(self.capture, start, min(end + 12, len(self.capture))))
        return next((at for at in places if at < end and self.goes_on(at, time)), None)

    def ends_well(self, at, size, time):
        """Returns whether the end, a header or a packet follows if the packet at this offset has this size."""
        end = at + 16 + size
        if end >= len(self.capture) or self.begins_capture(end):
            return end <= len(self.capture)
        head = self.head(end)
        is_near = head and head.stored <= LONGEST and any(vars(head).values()) and abs(time - head.seconds) <= DAY
        return bool(is_near) or self.is_row(end, None, 4)

    def can_be(self, head, size, time):
        is_short = size <= head.wire or head.wire > LONGEST
        return 0 < size <= self.limit and head.fraction * self.unit < BILLION and abs(time - head.seconds) <= DAY and is_short

    def is_opposed(self, at, head, time):
        if head.stored == 0 or head.stored > self.limit or self.breaks_a_rule(head):
            return True
        return self.first(at + 16, at + 16 + head.stored, time) is not None

    def weight(self, at, time):
        """Returns what the head at this offset is worth by the bytes behind it."""
        head = self.head(at)
        if not head:
            return SHORT
        if self.ends_well(at, head.stored, time):
            return STANDS
        whole = min(head.wire, self.limit)
        if self.can_be(head, whole, time) and self.ends_well(at, whole, time):
            return LENGTH
        if self.is_opposed(at, head, time):
            return WRONG
        return STANDS if at + 16 + head.stored <= len(self.capture) else SHORT

    def unlimited(self):
        """Returns the same capture without a snapshot length."""
        return Reading(self.capture, self.order, self.unit, 0)

    def stand_behind(self, at):
        """Returns whether the packets behind the one at this offset stand too, whatever their length, as far as there are any."""
        unlimited = self.unlimited()
        for _ in range(BEHIND):
            head = self.head(at)
            at += 16 + head.stored
            weight = unlimited.weight(at, head.seconds)
            if weight != STANDS:
                return weight != WRONG or self.begins_capture(at)
        return True

    def exceeding_size(self, at, head):
        """Returns the size of a packet longer than the snapshot length, and whether what follows confirms it, if nothing else speaks against
        it, and its next packets stand too."""
        unlimited = self.unlimited()
        if unlimited.weight(at, head.seconds) != STANDS or not self.stand_behind(at):
            return None
        return head.stored, unlimited.ends_well(at, head.stored, head.seconds)

    def whole_length(self, at, time):
        """Returns the length of the whole packet, or of what the capture stores of it, and whether it is a guess, if packets go on there."""
        head = self.head(at)
        size = min(head.wire, self.limit)
        if size == head.stored or not self.can_be(head, size, time):
            return None
        if self.ends_well(at, size, time):
            return size, True, head.wire > LONGEST
        return (size, True, True) if self.is_misstated(at + 16 + size, time) else None

    def is_misstated(self, at, time):
        """Returns whether a packet near this time is at this offset whose stored length is wrong, but not its original one."""
        head = self.head(at)
        size = min(head.wire, self.limit) if head else 0
        return bool(head) and self.can_be(head, size, time) and self.ends_well(at, size, head.seconds)

    def short_run(self, at, longest):
        """Returns the number of bytes of the run of packets at this offset, or 0 if it is longer than a packet."""
        start, bound = at, min(longest, self.limit)
        while at - start <= bound:
            head = self.head(at)
            behind = at + 16 + head.stored if head else 0
            is_last = len(self.capture) - 16 < behind <= len(self.capture)
            if not head or not (is_last or self.ends_well(at, head.stored, head.seconds)):
                return at - start
            at = behind
        return 0

    def hides_packets(self, at, head, time):
        """Returns whether packets go on inside the data of a doubtful stored length, so that the packet may end before them."""
        if head.stored <= min(head.wire, self.limit):
            return False
        behind = self.first(at + 16, at + 16 + head.stored, time)
        return behind is not None and self.can_be(head, behind - at - 16, time)

    def size_at(self, at, time, is_doubted):
        """Returns the size of the packet at this offset, whether something confirms it, and whether it is a guess. The first is None for
        corrupt bytes, and the second is then where packets go on. All are None for a truncated packet."""
        head, before = self.head(at), time or 0
        if not head:
            return None, None, None
        time = head.seconds if time is None else time
        weight = self.weight(at, time)
        if weight == SHORT:
            return None, None, None
        if weight == LENGTH:
            return min(head.wire, self.limit), True, head.wire > LONGEST
        if weight == STANDS:
            if self.ends_well(at, head.stored, time):
                is_zero = is_doubted and not any(vars(head).values())
                if not is_zero and not self.hides_packets(at, head, time):
                    return head.stored, True, False
            elif whole := self.whole_length(at, time):
                return whole
            elif self.can_be(head, head.stored, time) or self.stand_behind(at):
                return head.stored, False, False
        if weight == WRONG and head.stored > self.limit and (exceeding := self.exceeding_size(at, head)):
            size, is_confirmed = exceeding
            if not is_confirmed or not self.hides_packets(at, head, time):
                return size, is_confirmed, False
        if self.can_be(head, head.stored, time) and self.is_misstated(at + 16 + head.stored, time):
            return head.stored, True, False
        if whole := self.whole_length(at, time):
            return whole
        if self.is_row_by_length(at) and self.first(at + 16, at + 16 + head.stored, time) is None:
            return head.stored, False, False
        return self.size_by_search(at, head, time, before)

    def is_row_by_length(self, at):
        """Returns whether four packets follow each other by their stored lengths, or fewer, at least one, to the end, and no head is zeros."""
        for _ in range(BY_LENGTH):
            head = self.head(at)
            if not head or head.stored > LONGEST or not any(vars(head).values()):
                return False
            at += 16 + head.stored
            if at >= len(self.capture):
                return at == len(self.capture)
        return True

    def is_row_by_rules(self, at, end):
        """Returns whether three packets with data and without a flaw follow each other, or fewer, at least one, up to this end."""
        for _ in range(BY_RULES):
            head = self.head(at)
            if not head or self.breaks_a_rule(head) or head.stored == 0 or at + 16 + head.stored > end:
                return False
            at += 16 + head.stored
            if at == end:
                return True
        return True

    def size_by_search(self, at, head, time, before):
        """Returns the same if neither the stored length is right nor the original one."""
        behind = self.first(at + 16, at + 17 + LONGEST, time)
        if behind is not None and self.can_be(head, behind - at - 16, time):
            return behind - at - 16, None, True
        return None, self.corrupt_until(at, before), None

    def corrupt_until(self, at, time):
        """Returns where packets go on after corrupt bytes at this offset: by their times, or if those say nothing in a window, by the rules."""
        start, last = at + 1, len(self.capture)
        while True:
            end, is_all = min(start + WINDOW, last), last - start < WINDOW
            bound = end if is_all else end - ROW
            found = self.first(start, bound, time)
            if found is None:
                places = (it.start() for it in MAY_GO_ON[self.order].finditer(self.capture, start, min(bound + 12, last)))
                found = next((place for place in places if place < bound and self.is_row_by_rules(place, end)), None)
            if found is not None or is_all:
                return last if found is None else found
            start = bound
