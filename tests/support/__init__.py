"""What the scripts of tests/ share. A script reads as what it tries; how frames are made, programs run and ports are found stands here."""

from .frames import (
    CFG1,
    CFG2,
    COMMAND,
    DATA,
    DATA_OFF,
    DATA_ON,
    HEADER,
    LARGE,
    MEDIUM,
    OWN,
    SEND_CFG1,
    SEND_CFG2,
    SEND_HEADER,
    SMALL,
    TIME_BASE,
    Device,
    Shape,
    command,
    configuration,
    data,
    framed,
    instant_of,
    kind_of,
    now,
    rows_of,
    section,
    sections_of,
    split,
    stamp_of,
    tag,
)
from .pair import IDENTS, NAMES, Pair
from .ports import Ports
from .programs import CHECK, PDC, RECORD, TOP, WATCH, Program, Room, settings
from .script import Failed, fail, script, skip, sleep_to, until
from .sockets import HOST, Consumer, Devices, Reader, Server, configure, counters, datagrams, dropped, queues, until_read
from .watched import Watched
