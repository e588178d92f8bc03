"""A CSA server for tests. It speaks as shogi-server does, and plays one game with the first client that comes.

The opponent's moves and the lines that end the game are given. The seconds of the client's moves are real.
"""

import contextlib
import dataclasses
import select
import socket
import threading
import time

SECONDS = 60

EVEN = """\
P1-KY-KE-GI-KI-OU-KI-GI-KE-KY
P2 * -HI *  *  *  *  * -KA * 
P3-FU-FU-FU-FU-FU-FU-FU-FU-FU
P4 *  *  *  *  *  *  *  *  * 
P5 *  *  *  *  *  *  *  *  * 
P6 *  *  *  *  *  *  *  *  * 
P7+FU+FU+FU+FU+FU+FU+FU+FU+FU
P8 * +KA *  *  *  *  * +HI * 
P9+KY+KE+GI+KI+OU+KI+GI+KE+KY
P+
P-
"""

# White has no lance on 11.
LANCE = EVEN.replace("-KE-KY\nP2", "-KE * \nP2")

GAME_ID = "test+practice-900-10+me+other+20260101000000"


@dataclasses.dataclass(frozen=True)
class Game:
    """What the server offers, and what it and the opponent do."""

    # the client's side
    side: str = "+"
    position: str = EVEN
    # whose turn it is in that position
    first: str = "+"
    # the moves of the summary, with their times
    before: tuple = ()
    # those of the opponent after that
    moves: tuple = ()
    # what is sent instead of the opponent's next move
    end: tuple = ("#CHUDAN",)
    # what is sent instead of START:
    refusal: tuple | None = None
    # how many seconds the client has for a move
    limit: float = SECONDS

    def summary(self):
        names = ("me", "other") if self.side == "+" else ("other", "me")
        return (
            "BEGIN Game_Summary\nProtocol_Version:1.2\nProtocol_Mode:Server\nFormat:Shogi 1.0\n"
            f"Declaration:Jishogi 1.1\nGame_ID:{GAME_ID}\nName+:{names[0]}\nName-:{names[1]}\n"
            f"Your_Turn:{self.side}\nRematch_On_Draw:NO\nTo_Move:{self.first}\nMax_Moves:256\n"
            "BEGIN Time\nTime_Unit:1sec\nTotal_Time:900\nByoyomi:10\nLeast_Time_Per_Move:0\nEND Time\n"
            f"BEGIN Position\n{self.position}{self.first}\n{''.join(move + chr(10) for move in self.before)}"
            "END Position\nEND Game_Summary\n"
        )


class Client:
    """The lines of one client."""

    def __init__(self, connection, heard):
        self.connection, self.heard = connection, heard
        self.lines = connection.makefile("rw", newline="\n")

    def says(self, seconds=SECONDS):
        """The client's next line, or None if it says nothing in so many seconds. An empty line is its end."""
        if not select.select([self.connection], [], [], seconds)[0]:
            return None
        line = self.lines.readline()
        self.heard.append(line)
        return line.rstrip("\n")

    def tell(self, *lines):
        self.lines.write("".join(line + "\n" for line in lines))
        self.lines.flush()


def serve(client, game):
    """One session: login, summary, game, and LOGOUT."""
    login = client.says().split()
    client.tell(f"LOGIN:{login[1]} OK")
    client.tell(*game.summary().splitlines())
    if client.says().split()[0] != "AGREE":
        client.tell(f"REJECT:{GAME_ID} by me")
    elif game.refusal is not None:
        client.tell(*game.refusal)
    else:
        client.tell(f"START:{GAME_ID}")
        play(client, game)
        # without an end, the connection is closed
        while game.end and (line := client.says()) and line != "LOGOUT":
            pass  # a move that came too late
        if game.end and line:
            client.tell("LOGOUT:completed")


def play(client, game):
    """The game after START:, up to its end."""
    turn = game.first if len(game.before) % 2 == 0 else "-+"[game.first == "-"]
    moves = list(game.moves)
    while True:
        if turn == game.side:
            begun = time.monotonic()
            line = client.says(game.limit)
            spent = int(time.monotonic() - begun)
            if line is None:
                return client.tell("#TIME_UP", "#LOSE")
            if line == "%TORYO":
                return client.tell(f"%TORYO,T{spent}", "#RESIGN", "#LOSE")
            if line == "%KACHI":
                return client.tell(f"%KACHI,T{spent}", "#JISHOGI", "#WIN")
            if not line:
                return None
            client.tell(f"{line},T{spent}")
        elif moves:
            client.tell(f"{moves.pop(0)},T1")
        else:
            return client.tell(*game.end)
        turn = "-" if turn == "+" else "+"


@contextlib.contextmanager
def playing(game):
    """A server that plays this game: its port, and the lines that come to it."""
    heard = []

    def answer(listener):
        with contextlib.suppress(OSError, AttributeError, IndexError), listener.accept()[0] as connection:
            serve(Client(connection, heard), game)

    with socket.create_server(("127.0.0.1", 0)) as listener:
        listener.settimeout(SECONDS)
        answers = threading.Thread(target=answer, args=(listener,), daemon=True)
        answers.start()
        yield listener.getsockname()[1], heard
        answers.join(SECONDS)
