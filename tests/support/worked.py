"""The worked run: its events, its replies, and its replies when a write is cut."""

from support.files import EXAMPLES

# The worked run: two images are tried, one is confirmed, and both revert. The number of writes of each event on
# a new flash, from the tables of docs/FORMATS.md.
WORKED = "reverted"

WRITES = [0, 2, 2, 2, 1, 1, 38, 1, 44, 0]
SUM_OF_WRITES = sum(WRITES)

# What an interrupted write leaves, as a script says it. The last one leaves copies of a good magic.
MAGIC = "hex:77c295f360d2ef7f3552500f2cb67980"

TORN = ["keep", "done", "hex:ff", "hex:00", MAGIC]

# Replies, in which each `|` ends a line.
PLAIN = "plain|run 0 1.0.0+0|run 1 1.0.0+0"

NEEDS = f"{PLAIN}|refuse 1 needs 0 2.0.0+0"
TRIED, BACK = "trial|take 0 2.0.0+0|take 1 2.0.0+0", "reverted 0 1"
NOT_UP, NO_TRIAL = "refused boot 1 NotBooted", "refused boot 3 NotOnTrial"
USUAL = [PLAIN, *5 * ["done"], TRIED, "done", BACK, PLAIN]


def numbered(replies):
    """What a run with these replies prints."""
    return "".join(f"{at} {reply}\n".replace("|", "\n") for at, reply in enumerate(replies, 1)).encode()


def ended(replies, status=0, err=b""):
    """How a run with these replies ends."""
    return status, numbered(replies), err


def event_of(number):
    """The event of this write, counted from 0."""
    return next(at for at in range(10) if sum(WRITES[: at + 1]) >= number)


def replies_after(event, is_set, is_magic):
    """The replies after the event that was interrupted.

    The last write of an event may have its effect: a unit is set, or a good magic is written.
    """
    if event == 8:
        return [PLAIN if is_set else BACK]
    if event == 7:
        return USUAL[8:]
    if event == 6:
        return [NOT_UP, *([BACK, PLAIN] if is_set else [TRIED, BACK])]
    if event == 5 and is_magic:
        return USUAL[6:]
    boot = NEEDS if event == 5 or event == 4 and is_magic else PLAIN
    return [*(5 - event) * [NOT_UP], boot, NO_TRIAL, boot, boot]


def cut_at(number, torn):
    """The replies of the worked run if this write is interrupted, and the sequence number and swap types that
    `show` prints afterwards."""
    event = event_of(number)
    is_last = sum(WRITES[: event + 1]) == number
    # An erased unit is set, and a magic is good, if they hold these bytes.
    is_set = is_last and torn not in ("keep", "hex:ff")
    rest = replies_after(event, is_set, is_last and torn in ("done", MAGIC))
    sequence = 0 if event == 1 and not is_set else 1
    return [*USUAL[:event], "cut", *rest], sequence, ["none", "test" if NEEDS in rest else "none"]


SCRIPT = f"{EXAMPLES}/scripts/{WORKED}.txt"

# The worked run if a write of a record fails, and the replies of the next boot.
WORKED_EVENTS = (
    "boot, accept trial.json, piece 0 needing.img, piece 1 partner.img, finish 1, finish 0, boot, confirm 0, boot, boot"
)

ACCEPT_FAILS = [PLAIN, "cut", *4 * [NOT_UP], PLAIN, NO_TRIAL, PLAIN, PLAIN]
NO_SESSION, NOTHING_REQUESTED = "refused upload 3 NoSession", "refused upload 9 NothingRequested"
