"""The pictures that are told line by line: who says what to whom, the states, and the queues; for tools/pictures."""
from svg import Picture

# Who says what to whom; `note` is told at the gateway.
TALK = (
    ("player 1", "gateway", "SETUP, channels 0-1, CSeq 4"),
    ("gateway", "server", "SETUP, channels 0-1, CSeq 1"),
    ("note", "", "connection 1 has number 1 and pair 0"),
    ("player 2", "gateway", "SETUP, channels 0-1, CSeq 4"),
    ("gateway", "server", "SETUP, channels 2-3, CSeq 2"),
    ("note", "", "connection 2 has number 2 and pair 1"),
    ("server", "gateway", "200, CSeq 2, session B, channels 2-3"),
    ("gateway", "player 2", "200, CSeq 4, session B, channels 0-1"),
    ("server", "gateway", "200, CSeq 1, session A, channels 0-1"),
    ("gateway", "player 1", "200, CSeq 4, session A, channels 0-1"),
    ("player 2", "gateway", "PLAY 0-10, CSeq 5"),
    ("gateway", "server", "PLAY 0-10, session B, CSeq 3"),
    ("player 2", "gateway", "GET_PARAMETER, CSeq 6"),
    ("note", "", "it waits: connection 2 is busy"),
    ("server", "gateway", "200, CSeq 3"),
    ("gateway", "player 2", "200, CSeq 5"),
    ("gateway", "server", "GET_PARAMETER, session B, CSeq 4"),
    ("server", "gateway", "frame on channel 2"),
    ("gateway", "player 2", "frame on channel 0"),
    ("server", "gateway", "200, CSeq 4"),
    ("gateway", "player 2", "200, CSeq 6"),
    ("player 2", "gateway", "PLAY 60-70, CSeq 7"),
    ("gateway", "player 2", "200, CSeq 7"),
    ("note", "", "the PLAY waits for the end of 0-10"),
    ("server", "gateway", "PLAY_NOTIFY, session B: request 3 is over"),
    ("gateway", "server", "200, and PLAY 60-70, session B, CSeq 5"),
    ("player 1", "gateway", "its end"),
    ("gateway", "server", "TEARDOWN, session A, CSeq 6"),
    ("note", "", "pair 0 is held until the reply"),
    ("server", "gateway", "200, CSeq 6"),
    ("server", "gateway", "200, CSeq 9"),
    ("note", "", "nobody asked: UnknownReply 9"),
    ("gateway", "player 2", "closed"),
)
LIVES = {"player 1": 90, "player 2": 290, "gateway": 560, "server": 860}


def draw_sequence():
    picture = Picture(960, 110 + 36 * len(TALK), "two players and one server, whose numbers and channels they share")
    end = 80 + 36 * len(TALK)
    for name, x in LIVES.items():
        picture.path("M%d 56V%d" % (x, end), "life")
        picture.box(x, 36, 130, 34, [name], "top" if name == "gateway" else "")
    for place, (whence, whither, what) in enumerate(TALK):
        y = 96 + 36 * place
        if whence == "note":
            picture.box(LIVES["gateway"], y - 8, 246, 22, [], "hold")
            picture.text(LIVES["gateway"], y - 7, what, "note")
            continue
        x, u = LIVES[whence], LIVES[whither]
        picture.path("M%d %dH%d" % (x, y, u - 2 if u > x else u + 2), "", True)
        near = (x + u) / 2 if "server" in (whence, whither) else (LIVES["gateway"] + LIVES["player 2"]) / 2
        picture.text(near, y - 9, what, "small")
    return picture


def draw_states():
    picture = Picture(1_060, 1_015, "the states of a connection, and those of its sessions")
    draw_connection(picture)
    draw_session(picture)
    return picture


def draw_connection(picture):
    picture.text(30, 30, "A connection", "title left")
    picture.region(170, 50, 570, 230)
    picture.text(186, 68, "alive", "left quiet")
    picture.box(300, 200, 150, 60, ["ready", "nothing is open"])
    picture.box(620, 200, 150, 60, ["busy", "one request is open"], "hold")
    picture.box(290, 450, 200, 60, ["closed", "its last request is open"], "over")
    picture.box(800, 450, 220, 60, ["over", "nothing has an effect"], "over")
    picture.path("M60 200H222", "", True)
    picture.text(120, 190, "it enters", "small")
    picture.path("M376 187H542", "", True)
    picture.texts(460, 161, ["a request goes up,", "or the PLAY that is due"])
    picture.path("M544 213H378", "", True)
    picture.texts(460, 231, ["a final reply; what waits", "is answered by the gateway"])
    picture.path("M270 169C250 100 350 100 330 167", "", True)
    picture.texts(300, 86, ["a request is answered by the gateway,", "or is a PLAY that waits"])
    picture.path("M590 169C570 100 670 100 650 167", "", True)
    picture.texts(620, 72, ["a request comes, and waits;", "a reply below 200;", "a final reply, and the next one goes up"])
    # From the alive to the closed, and to those that are over.
    picture.path("M290 281V418", "", True)
    picture.texts(302, 326, ["its client ends: E, sends a Bad item: B, or lags: S,", "while a request is open, or with a session.",
                             "What waits is dropped, and TEARDOWNs go up, one for", "each session in turn, once nothing is open"], "small left")
    picture.path("M720 281V418", "", True)
    picture.texts(732, 333, ["E, B or S, with nothing", "open and no session"], "small left")
    picture.path("M741 150H950Q970 150 970 170V430Q970 450 950 450H913", "", True)
    picture.text(856, 140, "the connection to the server ends: U", "small")
    # From the closed, and for one that comes too late.
    picture.path("M260 481C240 550 340 550 320 483", "", True)
    picture.texts(290, 548, ["a final reply, told to nobody, with a session left:", "the next TEARDOWN goes up"])
    picture.path("M391 436H687", "", True)
    picture.text(539, 426, "a final reply, with no session left", "small")
    picture.path("M391 464H687", "", True)
    picture.text(539, 478, "the connection to the server ends", "small")
    picture.path("M800 540V483", "", True)
    picture.texts(812, 513, ["it enters after the connection", "to the server ended"], "small left")


def draw_session(picture):
    picture.text(30, 620, "A session, of which a connection has four at most, while it is alive", "title left")
    picture.box(150, 780, 130, 54, ["Init", "an empty place"])
    picture.box(500, 780, 130, 54, ["Ready", "no stream plays"])
    picture.box(850, 780, 150, 54, ["Playing", "8 PLAYs may wait"], "top")
    picture.path("M216 770H433", "", True)
    picture.text(325, 760, "SETUP", "small")
    picture.path("M434 792H217", "", True)
    picture.text(325, 806, "TEARDOWN", "small")
    picture.path("M566 770H773", "", True)
    picture.text(670, 760, "PLAY", "small")
    picture.path("M774 792H567", "", True)
    picture.text(670, 806, "PAUSE; no PLAY waits any longer", "small")
    picture.path("M470 753C440 670 560 670 530 751", "", True)
    picture.text(500, 676, "SETUP", "small")
    picture.path("M820 753C790 670 910 670 880 751", "later", True)
    picture.texts(850, 648, ["PLAY with a Range waits;", "the end of what plays, and the next", "PLAY goes up"])
    picture.path("M820 808C790 870 560 870 522 810", "later", True)
    picture.texts(671, 874, ["the end of what plays, with no PLAY waiting;", "a PLAY that waited is refused, and all others go with it"])
    picture.path("M895 808V910Q895 930 875 930H170Q150 930 150 910V810", "", True)
    picture.text(500, 944, "TEARDOWN; no PLAY waits any longer", "small")
    picture.text(30, 980, "OPTIONS, DESCRIBE, GET_PARAMETER and SET_PARAMETER change no state. Unbroken lines are the server's replies of "
                 "200 to 299 to the player's own", "left quiet")
    picture.text(30, 994, "requests; no other reply to them changes a state. Broken lines are the rest.", "left quiet")


# The two sides of the hub: who stands there, with how many parcels the ports hold.
SIDES = ((130, "one player's connection", "a player", "16 items", "256 parcels"),
         (370, "the connection to the server", "the server", "256 items", "4,096 parcels"))


def draw_queues():
    picture = Picture(1010, 505, "the queues of one connection and of the server, and the hub between them")
    picture.box(880, 250, 190, 330, ["the hub, under its lock"], "top")
    picture.box(880, 170, 160, 44, ["core"])
    picture.box(880, 330, 160, 44, ["recorder", "notes each event first"])
    for y, title, who, inward, outward in SIDES:
        picture.text(40, y - 92, title, "title left")
        picture.box(110, y, 130, 120, [who, "a socket"])
        for x, name, foot, step in ((290, "reader", "cuts items", -40), (290, "writer", "gathers, writes", 40)):
            picture.box(x, y + step, 130, 46, [name, foot])
        for step, name, held in ((-40, "inward port", inward), (40, "outward port", outward)):
            picture.box(560, y + step, 170, 46, [name, held + " at most"], "hold")
        for start, end, step, said in ((176, 222, -40, ""), (356, 472, -40, "put"), (646, 782, -40, "take")):
            picture.path("M%d %dH%d" % (start, y + step, end), "", True)
            picture.text((start + end) / 2, y + step - 8, said, "small")
        for start, end, step, said in ((224, 178, 40, ""), (474, 358, 40, "take"), (784, 648, 40, "put")):
            picture.path("M%d %dH%d" % (start, y + step, end), "", True)
            picture.text((start + end) / 2, y + step - 8, said, "small")
    picture.text(40, 465, "A full inward port holds its reader back, and so its socket. A full outward port closes that connection as too slow, or ends the server's.", "left quiet")
    picture.text(40, 483, "Readers and writers are threads. The server's reader also takes from its inward port, and writes to players whose writers rest.", "left quiet")
    return picture
