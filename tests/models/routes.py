"""The routes of the server by docs/http.md, each once. All tests that go through the routes take them from here.

A part of a path in capitals is a parameter, as in the document.
"""
import dataclasses
import re

NUMBERS, WORDS = ("ID", "PLY", "NUMBER"), ("NAME", "MEMBER")  # the parameters that are numbers, and those that are names
EXAMPLES = {"ID": 1, "PLY": 1, "NUMBER": 1, "NAME": "autumn", "MEMBER": "bert"}


@dataclasses.dataclass(frozen=True)
class Route:
    """A route, with the name of its function in the models, and an example of its body."""

    method: str
    path: str
    name: str
    keys: tuple = ()  # the keys of the object in its body, with the types of their values
    body: str | None = None
    forbids_storing: bool = False  # whether its replies have `Cache-Control: no-store`
    is_public: bool = False  # whether it needs no key
    is_analysis: bool = False  # whether its body has further keys, for where the moves begin

    def parts(self):
        return self.path.split("/")

    def with_values(self, **values):
        """The path with values for its parameters, or else with examples."""
        values = EXAMPLES | values
        return "/".join(str(values.get(it, it)) for it in self.parts())

    def pattern(self):
        """A regular expression for the path with good values."""
        return "/".join("[0-9]{1,9}" if it in NUMBERS else "[^/?]+" if it in WORDS else re.escape(it)
                        for it in self.parts())


def get(path, name, **more):
    return Route("GET", path, name, **more)


def post(path, name, *keys, body="", **more):
    return Route("POST", path, name, keys, body, **more)


ROUTES = (
    get("/play", "play", forbids_storing=True, is_public=True),
    get("/games/ID", "game"),
    get("/games/ID/legal", "legal"),
    get("/games/ID/clock", "clock", forbids_storing=True),
    get("/games/ID/rulings", "rulings", forbids_storing=True),
    get("/games/ID/record", "record", forbids_storing=True),
    get("/games/ID/page", "page", forbids_storing=True),
    get("/events/NAME/table", "table"),
    get("/events/NAME/games", "games_in", forbids_storing=True),
    get("/events/NAME/standings", "standings", forbids_storing=True),
    get("/me", "me", forbids_storing=True),
    get("/me/ended", "ended", forbids_storing=True),
    get("/me/events", "inviting", forbids_storing=True),
    post("/analysis/draughts", "analysis_draughts", ("moves", list), body='{"moves":["32-28"]}', forbids_storing=True,
         is_analysis=True),
    post("/analysis/shogi", "analysis_shogi", ("moves", list), body='{"moves":["7g7f"]}', forbids_storing=True,
         is_analysis=True),
    post("/games/ID/moves/PLY", "move", ("move", str), body='{"move":"32-28"}'),
    post("/games/ID/draw/PLY/offer", "offer"),
    post("/games/ID/draw/PLY/accept", "accept"),
    post("/games/ID/resign", "resign"),
    post("/games/ID/claim-time", "claim"),
    post("/games/ID/declare/PLY", "declare"),
    post("/challenges/NUMBER", "challenge", ("event", str), ("first", bool), ("other", str),
         body='{"event":"autumn","first":true,"other":"bert"}'),
    post("/challenges/NUMBER/withdraw", "withdraw"),
    post("/answers/MEMBER/NUMBER", "answer", ("accept", bool), body='{"accept":false}'),
)
MEMBERS_ROUTES = tuple(it for it in ROUTES if not it.is_public)
