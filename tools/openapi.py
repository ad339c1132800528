#!/usr/bin/env python3
"""Writes docs/openapi.json, the OpenAPI 3.1 description of the server's HTTP interface.

    python3 tools/openapi.py            writes the description
    python3 tools/openapi.py --check    exits with status 1 if the file differs from what this script writes

docs/http.md describes the same interface in prose. tests/server/openapi.py checks the description against a server.
"""
import json
import pathlib
import sys

FILE = pathlib.Path(__file__).resolve().parents[1] / "docs/openapi.json"
JSON, PLAIN, HTML = "application/json", "text/plain", "text/html; charset=utf-8"
LAST_MOMENT = 253402300799  # the last second of the year 9999
# the largest budget, the largest increment for each of 300 moves, and 99 of the largest grants
LARGEST_LEFT = 31536000 + 300 * 2592000 + 99 * 31536000

INFO = """\
A member of a draughts and shogi club reads and plays its games over this interface. The server listens on 127.0.0.1.

**Requests.** HTTP/1.1 or 1.0. HTTP/1.1 needs `Host` exactly once. A head has at most 16,384 bytes and 64 fields.
A body has at most 65,536 bytes. Every POST needs `Content-Length`, also without a body (`Content-Length: 0`).
`Transfer-Encoding` is refused. The server does not read `Content-Type` and does not decode percent-encoding.
It ignores a query after `?`.

**Replies.** Every reply has `Content-Type`, `Content-Length` and `Connection: close`. The server closes the connection
after it. A request that begins with `HEAD ` gets the reply without its body; `Content-Length` is that of the body.
JSON has no whitespace, and the members of an object are in the order of their bytes. All numbers are integers.

**Idempotence.** A repeated command has the same status and the same bytes. After a lost reply or a 503 a client sends
the request again.

**Refusals and faults.** The body is `{"error":NUMBER,"name":NAME}`. A refusal changes nothing. Faults 70 to 75 have
status 503; the command may have been done or not. Faults 76 Input and 77 Output are faults of the command line; no
route returns them. If the server is out of memory for the reply itself, it closes the connection without one."""

# The number, the name, the HTTP status and the general meaning of each refusal that a route can return.
REFUSALS = {
    10: ("NoSuchMove", 422, "The move is not legal (draughts)."),
    11: ("MustCapture", 422, "A capture exists, and the move takes nothing (draughts)."),
    12: ("NotLongest", 422, "Another capture takes more pieces (draughts)."),
    13: ("NoSuchMove", 422, "The piece cannot make this move (shogi)."),
    14: ("NotInHand", 422, "The side to move has no such piece in hand (shogi)."),
    15: ("MustPromote", 422, "The piece must promote on this square (shogi)."),
    16: ("DeadDrop", 422, "The dropped piece could never move (shogi)."),
    17: ("TwoPawns", 422, "The file has an unpromoted pawn of the same side (shogi)."),
    18: ("KingAttacked", 422, "The move leaves the own king attacked (shogi)."),
    19: ("DropMate", 422, "A dropped pawn must not mate (shogi)."),
    20: ("BadText", 422, "The text is not a move of draughts."),
    21: ("Ambiguous", 422, "The text fits several captures (draughts)."),
    30: ("BadText", 422, "The text is not a move of shogi."),
    50: ("UnknownKey", 401, "No member has the key, or `Member-Key` is missing or repeated."),
    52: ("UnknownEvent", 404, "No event has this name."),
    53: ("UnknownGame", 404, "No game has this id."),
    54: ("UnknownChallenge", 404, "The member has no challenge with this number."),
    55: ("NotAPlayer", 403, "The member does not play in this game."),
    56: ("GameOver", 409, "The game has ended."),
    57: ("WrongPly", 409, "PLY is not the number of plies played plus 1."),
    58: ("Conflict", 409, "Another command was accepted before."),
    59: ("NotYourTurn", 409, "The other player is to move."),
    60: ("OutOfTime", 409, "The move took more seconds than the mover had left."),
    61: ("TimeLeft", 409, "The side to move still has time."),
    62: ("NoOffer", 409, "The opponent made no offer at this ply."),
    63: ("NotInThisGame", 422, "Shogi has no draw by agreement."),
    65: ("BadValue", 422, "A value is outside its limits."),
    66: ("Full", 409, "The club has 5,000 games."),
    67: ("NotDeclarable", 409, "The game, the event or the position does not allow a declaration."),
    68: ("EventClosed", 409, "The event takes no challenges."),
    80: ("BadHead", 400, "The head is malformed, or `Content-Length` is repeated or has not 1 to 9 digits."),
    81: ("BadBody", 400, "The body is not a JSON object with the required members of the required types."),
    82: ("NoRoute", 404, "A number in the path has not 1 to 9 digits, or a name in it is empty."),
    83: ("WrongMethod", 405, "The path has another method, which `Allow` names."),
    84: ("NoLength", 411, "A POST has no `Content-Length`."),
    85: ("TooLong", 413, "`Content-Length` is above 65,536."),
    86: ("HeadTooLong", 431, "The head has more than 16,384 bytes or 64 fields."),
    87: ("NotImplemented", 501, "The request has a `Transfer-Encoding`."),
    88: ("BadHost", 400, "HTTP/1.1 without `Host`, or `Host` twice."),
}
FAULTS = {
    70: ("Foreign", 503, "The file is missing or has not the tables of a club."),
    71: ("Schema", 503, "The file has another schema version."),
    72: ("Damaged", 503, "A table has rows that no club has."),
    73: ("Store", 503, "A database call failed, or another program holds the file."),
    74: ("Reopen", 503, "An earlier database call failed, and the file must be reopened."),
    75: ("Memory", 503, "The server is out of memory."),
}
ERRORS = REFUSALS | FAULTS
PHRASES = {400: "Bad Request", 401: "Unauthorized", 403: "Forbidden", 404: "Not Found", 405: "Method Not Allowed",
           409: "Conflict", 411: "Length Required", 413: "Payload Too Large", 422: "Unprocessable Entity",
           431: "Request Header Fields Too Large", 501: "Not Implemented", 503: "Service Unavailable"}


def ref(kind, name):
    return {"$ref": f"#/components/{kind}/{name}"}


def schema(name):
    return ref("schemas", name)


def integer(least, most, description):
    return {"type": "integer", "minimum": least, "maximum": most, "description": description}


def text(description, **rest):
    return {"type": "string", "description": description} | rest


def constant(value, description):
    return {"const": value, "description": description}


def or_null(of, description):
    return {"oneOf": [of, {"type": "null"}], "description": description}


def array(items, most, description, least=0):
    return {"type": "array", "items": items, "minItems": least, "maxItems": most, "description": description}


def with_note(name, description):
    return schema(name) | {"description": description}


def reply_object(description, **members):
    """An object that has exactly these members."""
    return {"type": "object", "description": description, "properties": members, "required": sorted(members),
            "additionalProperties": False}


def start_object(description, absent, **members):
    """A body with these members and without others, which are those of other starts."""
    found = body_object(description, **members)
    return found | {"properties": found["properties"] | {it: {"description": "Absent.", "not": {}} for it in absent}}


def body_object(description, **members):
    """An object that has at least these members; the server ignores others."""
    return {"type": "object", "description": f"{description} The server ignores other members; of a repeated one the "
            "last counts.", "properties": members, "required": sorted(members)}


SQUARE = "([1-9]|[1-4][0-9]|50)"
PIECES = f"(K?{SQUARE}(,K?{SQUARE})*)?"
RANK = r"([1-9]|\+?[RBSNLPrbsnlp]|[KGkg]){1,9}"
DRAUGHTS_ENDS = "NoMove Repetition KingMoves ThreeToOne TwoToOne PlyLimit".split()
SHOGI_ENDS = "NoMove PerpetualCheck Fourfold PlyLimit".split()
RULE_ENDS = [*DRAUGHTS_ENDS, *(it for it in SHOGI_ENDS if it not in DRAUGHTS_ENDS)]
OUTSIDE_ENDS = "Agreed Resigned Time Declared Recorded".split()
VERDICTS = "Awarded Void".split()

LEFT = array(integer(0, LARGEST_LEFT, "Seconds."), 2, "The seconds that First and Second had left at the last entry.", 2)
CHALLENGE_NUMBER = integer(1, 9999, "The challenger's number of the challenge.")
GAME_ID = schema("GameId")
NAME = schema("Name")
TRIED = array(text("A move in any text that docs/formats.md allows.", maxLength=200), 64, "The moves to try, in order.")


def listed_challenge(state, game):
    return reply_object(
        f"A challenge in the state `{state}`.",
        event=with_note("Name", "The event's name."),
        first=with_note("Name", "The member who plays First."),
        **{"from": with_note("Name", "The member who challenged.")},
        game=game,
        number=CHALLENGE_NUMBER,
        second=with_note("Name", "The member who plays Second."),
        state=constant(state, "The state of the challenge."),
        to=with_note("Name", "The member who was challenged."))


def ended_game(end, results, description):
    return reply_object(description, end=constant(end, "How the game ended."), game=GAME_ID,
                        result=text("First's score, then Second's.", enum=results))


def ruling(kind, description, **members):
    """A ruling of an arbiter, with the members that its kind has."""
    return reply_object(description, kind=constant(kind, "The kind of the ruling."), **members,
                        moment=with_note("Moment", "When it was given."),
                        number=integer(1, 99, "Its number in this game."),
                        ply=with_note("PliesPlayed", "The plies that were played before it."))


DECISIVE = ["2-0", "0-2"]
TABLE_LINE = r" {0,2}[0-9]{1,3} [0-9A-Za-z._-]{1,24} *( +([0-9]+|-|\.)){6,}\n"
SCHEMAS = {
    "Name": text("The name of a member or of an event.", pattern="^[0-9A-Za-z._-]{1,24}$"),
    "GameId": integer(1, 5000, "The game's id."),
    "Ply": integer(1, 600, "A ply, counted from 1."),
    "PliesPlayed": integer(0, 600, "How many plies were played. First is to move if it is even."),
    "Moment": integer(0, LAST_MOMENT, "Unix seconds."),
    "Result": text("First's score, then Second's.", enum=["2-0", "1-1", "0-2"]),
    "Kind": text("The game that is played.", enum=["draughts", "shogi"]),
    "RuleEnd": text("An end by the rules.", enum=RULE_ENDS),
    "End": text("An end by the rules, by the players, by time, by an imported record or by the arbiter.",
                enum=RULE_ENDS + OUTSIDE_ENDS + VERDICTS),
    "MoveText": {"description": "A move as the server writes it: draughts by squares, shogi in USI.", "anyOf": [
        text("Draughts.", pattern=f"^{SQUARE}(-{SQUARE}|(x{SQUARE})+)$"),
        text("Shogi.", pattern=r"^([1-9][a-i][1-9][a-i]\+?|[RBGSNLP]\*[1-9][a-i])$")]},
    "Position": {"description": "A position: FEN in draughts, the first three fields of SFEN in shogi.", "anyOf": [
        text("FEN.", pattern=f"^[WB]:W{PIECES}:B{PIECES}$"),
        text("SFEN.", pattern=rf"^({RANK}/){{8}}{RANK} [bw] (-|([1-9][0-9]?)?[RBGSNLPrbgsnlp]"
                              r"(([1-9][0-9]?)?[RBGSNLPrbgsnlp])*)$")]},
    "Game": reply_object(
        "A game. `end` and `result` are null while the game is running. A void game has no result.",
        end=or_null(schema("End"), "How the game ended."),
        event=with_note("Name", "The event's name."),
        first=with_note("Name", "The member who plays First: White in draughts, Black in shogi."),
        game=GAME_ID,
        left=LEFT,
        moves=array(schema("MoveText"), 600, "The moves in order."),
        offer=or_null(NAME, "The member whose offer of a draw exists. An offer exists until the next move."),
        ply=schema("PliesPlayed"),
        position=schema("Position"),
        result=or_null(schema("Result"), "The result."),
        second=with_note("Name", "The member who plays Second.")),
    "LegalMoves": reply_object("The legal moves.", moves=array(
        schema("MoveText"), 600, "The legal moves in a fixed order. The list is empty if the game has ended.")),
    "Clock": reply_object(
        "The clock of a game.",
        deadline=or_null(schema("Moment"), "The last second in which a move is in time; null if the game has ended or "
                         f"the second is beyond {LAST_MOMENT}."),
        game=GAME_ID,
        left=LEFT,
        moment=with_note("Moment", "The timestamp at which this request counts."),
        now=array(integer(0, LARGEST_LEFT, "Seconds."), 2, "The seconds that First and Second have left at `moment`.", 2),
        since=with_note("Moment", "The timestamp of the last move, or of the game's start."),
        turn=or_null(NAME, "The member who is to move; null if the game has ended.")),
    "Grant": ruling("grant", "More time for a side.", seconds=integer(1, 31536000, "The seconds."),
                    side=text("The side.", enum=["first", "second"])),
    "Award": ruling("award", "The game ends with a score.", result=schema("Result")),
    "Void": ruling("void", "The game ends and does not count."),
    "Rulings": reply_object("The arbiter's rulings on a game.", rulings=array(
        {"oneOf": [schema("Grant"), schema("Award"), schema("Void")]}, 99, "The rulings by number.")),
    "GamePage": reply_object(
        "A game with its clock and its legal moves.",
        clock=schema("Clock"), game=schema("Game"), kind=schema("Kind"),
        legal=array(schema("MoveText"), 600, "The legal moves. The list is empty if the game has ended.")),
    "EventGame": reply_object(
        "A game in the list of an event.",
        deadline=or_null(schema("Moment"), "The last second in which a move is in time; null if the game has ended or "
                         f"the second is beyond {LAST_MOMENT}."),
        end=or_null(schema("End"), "How the game ended."), first=with_note("Name", "The member who plays First."),
        game=GAME_ID, ply=schema("PliesPlayed"), result=or_null(schema("Result"), "The result."),
        round=or_null(integer(1, 62, "A round."), "The round of a round robin, if the game has the key of one."),
        second=with_note("Name", "The member who plays Second."),
        turn=or_null(NAME, "The member who is to move; null if the game has ended.")),
    "EventGames": reply_object("The games of an event.", games=array(schema("EventGame"), 5000, "The games by id.")),
    "Standing": reply_object(
        "A member with a game in the event.",
        draws=integer(0, 5000, "The draws."), games=integer(0, 5000, "The ended games."),
        losses=integer(0, 5000, "The losses."), member=with_note("Name", "The member."),
        place=integer(1, 200, "The place: by points, wins, Sonneborn-Berger score, then the order of members."),
        points=integer(0, 10_000, "The points: 2 for a win, 1 for a draw."),
        running=integer(0, 5000, "The running games."),
        sonneborn_berger=integer(0, 100_000_000, "The Sonneborn-Berger score: the sum, over the opponents, of the points "
                                 "scored against the opponent times the opponent's points."),
        wins=integer(0, 5000, "The wins.")),
    "Standings": reply_object(
        "The standings of an event.", event=with_note("Name", "The event's name."), kind=schema("Kind"),
        standings=array(schema("Standing"), 200, "The members with a game in the event, by place.")),
    "OpenChallenge": listed_challenge("open", {"type": "null", "description": "An open challenge has no game."}),
    "AcceptedChallenge": listed_challenge("accepted", with_note("GameId", "The game that the challenge started.")),
    "RefusedChallenge": listed_challenge("refused", {"type": "null", "description": "A refused challenge has no game."}),
    "OwnGame": reply_object(
        "A running game of the member.",
        deadline=or_null(schema("Moment"), "The last second in which a move is in time; null if it is beyond "
                         f"{LAST_MOMENT}."),
        event=with_note("Name", "The event's name."), first=with_note("Name", "The member who plays First."),
        game=GAME_ID, kind=schema("Kind"), last=or_null(schema("MoveText"), "The last move; null before the first."),
        offer=or_null(NAME, "The member whose offer of a draw exists."), ply=schema("PliesPlayed"),
        position=schema("Position"),
        second=with_note("Name", "The member who plays Second."), turn=with_note("Name", "The member who is to move.")),
    "Me": reply_object(
        "The member's running games and challenges.",
        challenges=array({"oneOf": [schema("OpenChallenge"), schema("AcceptedChallenge")]}, 200,
                         "The member's own open and accepted challenges by number, the last 100 of them; then the open "
                         "challenges to the member by the challenger's id and the number, the first 10 of each "
                         "challenger and 100 in all."),
        games=array(schema("OwnGame"), 5000, "The running games by id."),
        member=with_note("Name", "The member's name."),
        moment=with_note("Moment", "The timestamp at which this request counts."),
        more=reply_object(
            "How many such challenges there are beyond those that are listed.",
            **{"from": integer(0, 9899, "The member's own open and accepted ones.")},
            to=integer(0, 1989701, "The open ones to the member.")),
        refused=array(schema("RefusedChallenge"), 20, "The member's own refused challenges, the greatest number first.")),
    "OwnEndedGame": reply_object(
        "An ended game of the member.",
        end=schema("End"),
        ended=or_null(schema("Moment"), "The timestamp of the last move if that move ended the game."),
        event=with_note("Name", "The event's name."), first=with_note("Name", "The member who plays First."),
        game=GAME_ID, kind=schema("Kind"), ply=schema("PliesPlayed"),
        result=or_null(schema("Result"), "The result; null if the game is void."),
        second=with_note("Name", "The member who plays Second.")),
    "Ended": reply_object(
        "The member's ended games.",
        games=array(schema("OwnEndedGame"), 200, "The games with the greatest ids, the greatest first."),
        member=with_note("Name", "The member's name."),
        moment=with_note("Moment", "The timestamp at which this request counts."),
        more=integer(0, 5000, "How many ended games the member has beyond these.")),
    "Event": reply_object(
        "An event.",
        budget=integer(1, 31536000, "The seconds with which each player starts."),
        event=with_note("Name", "The event's name."),
        game=text("The game of the event.", enum=["draughts", "shogi"]),
        increment=integer(0, 2592000, "The seconds that each move in time adds."),
        open={"type": "boolean", "description": "Whether the event takes challenges."}),
    "Events": reply_object(
        "The events, and the members to challenge.",
        events=array(schema("Event"), 50, "All events by id."),
        members=array(NAME, 199, "All other members by id.")),
    "AnalysisBody": {
        "description": "Moves to try, by a game and the plies of it that are played before them, from a position, or, with "
                       "neither, from the initial position.",
        "anyOf": [
            start_object("From the initial position.", ("game", "ply", "position"), moves=TRIED),
            start_object("From a position.", ("game", "ply"), moves=TRIED, position=with_note(
                "Position", "The position as the club writes it.")),
            start_object("In a game.", ("position",), game=GAME_ID, moves=TRIED,
                         ply=integer(0, 600, "How many of its plies are played."))]},
    "Analysis": reply_object(
        "The position after the moves that were tried.",
        end=or_null(schema("RuleEnd"), "The end of the line by the rules."),
        legal=array(schema("MoveText"), 1000, "The legal moves in the order of the rules; none if the line has an end."),
        moves=array(schema("MoveText"), 64, "The moves that were tried, as the club writes them."),
        position=schema("Position")),
    "MoveBody": body_object("A move.", move=text(
        "The move in any text that docs/formats.md allows, at most 200 bytes.", maxLength=200)),
    "Moved": reply_object(
        "An accepted move.",
        end=or_null(schema("RuleEnd"), "The end by the rules at this ply."),
        game=GAME_ID,
        left=integer(0, LARGEST_LEFT, "The seconds that the mover had left after this move, with the increment."),
        move=schema("MoveText"), ply=schema("Ply"), position=schema("Position")),
    "Offered": reply_object("An offer of a draw.", draw=constant("offered", "The state."), game=GAME_ID, ply=schema("Ply")),
    "Agreed": ended_game("Agreed", ["1-1"], "A game that ended by agreement."),
    "Resigned": ended_game("Resigned", DECISIVE, "A game that ended by resignation."),
    "TimeClaimed": ended_game("Time", DECISIVE, "A game that ended by time."),
    "Declared": ended_game("Declared", DECISIVE, "A game that ended by a declaration."),
    "ChallengeBody": body_object(
        "A challenge.", event=with_note("Name", "The event's name."),
        first={"type": "boolean", "description": "Whether the challenger plays First."},
        other=with_note("Name", "The member who is challenged.")),
    "ChallengeOpened": reply_object(
        "A challenge. The same challenge has this reply again, whatever its state is now.",
        challenge=CHALLENGE_NUMBER, state=constant("open", "The state.")),
    "ChallengeWithdrawn": reply_object("A withdrawn challenge.", challenge=CHALLENGE_NUMBER,
                                       state=constant("withdrawn", "The state.")),
    "AnswerBody": body_object("An answer to a challenge.", accept={
        "type": "boolean", "description": "Whether the challenge is accepted."}),
    "ChallengeAccepted": reply_object("An accepted challenge.", challenge=CHALLENGE_NUMBER, game=GAME_ID,
                                      state=constant("accepted", "The state.")),
    "ChallengeRefused": reply_object("A refused challenge.", challenge=CHALLENGE_NUMBER,
                                     state=constant("refused", "The state.")),
    "ChallengeAnswer": {"description": "The answer to a challenge.",
                        "oneOf": [schema("ChallengeAccepted"), schema("ChallengeRefused")]},
    "Table": text("The cross table, as the command `table` prints it.",
                  pattern=rf"^Event [0-9A-Za-z._-]{{1,24}}\n({TABLE_LINE})*$"),
    "Record": {"description": "The game as a record, as the command `export` prints it.", "anyOf": [
        text("PDN (draughts).", pattern=r'^\[Event "[^\n]*\n(\[[A-Z][A-Za-z]+ "[^\n]*"\]\n){5}\n([^\n]+\n)*'
                                        r"(2-0|1-1|0-2|\*)\n$"),
        text("CSA (shogi).", pattern=r"^V2\.2\nN\+[^\n]+\nN-[^\n]+\n\$EVENT:[^\n]+\n\$START_TIME:[^\n]+\nPI\n\+\n"
                                     r"([+-][0-9]{4}[A-Z]{2}\nT[0-9]+\n)*%[A-Z_+-]+\n$")]},
    "Page": text("The members' page.", pattern="^<!doctype html>"),
}

PARAMETERS = {
    "id": ("The game's id in 1 to 9 digits. Any other id than 1 to 5,000 is 53 UnknownGame.", GAME_ID),
    "ply": ("A ply in 1 to 9 digits: the number of plies played plus 1, or at a move an earlier ply.", schema("Ply")),
    "number": ("The challenger's number of the challenge in 1 to 9 digits.", integer(1, 9999, "1 to 9,999.")),
    "name": ("The event's name.", NAME),
    "member": ("The name of the member who challenged.", NAME),
}

HEADERS = {
    "Content-Length": ("The bytes of the body.", {"type": "integer", "minimum": 0}),
    "Connection": ("The server closes the connection after the reply.", {"const": "close"}),
    "AllowGet": ("The method of the path.", {"const": "GET"}),
    "AllowPost": ("The method of the path.", {"const": "POST"}),
    "WWW-Authenticate": ("The name of the field that has the key.", {"const": "Member-Key"}),
    "Content-Security-Policy": ("The policy of the members' page.", {"type": "string", "pattern": "^default-src 'none';"}),
    "Cache-Control": ("The reply may not be stored.", {"const": "no-store"}),
    "X-Content-Type-Options": ("The content type may not be guessed.", {"const": "nosniff"}),
    "Cache-Control-If-Found": ("The reply may not be stored; without it if no route was found.", {"const": "no-store"}),
    "X-Content-Type-Options-If-Found": ("The content type may not be guessed; without it if no route was found.",
                                        {"const": "nosniff"}),
}
# The paths whose replies have the fields about caching, unless the head was refused.
ANALYSES = "/analysis/draughts", "/analysis/shogi"
NO_STORE = ("/play", "/games/{id}/clock", "/games/{id}/rulings", "/games/{id}/record", "/games/{id}/page", "/events/{name}/games",
            "/events/{name}/standings", "/me", "/me/ended", "/me/events", *ANALYSES)
REFUSED_HEAD = 400, 411, 413, 431, 501

MOVE_REFUSALS = [55, 56, 57, 58, 59, 60, 65, 10, 11, 12, 13, 14, 15, 16, 17, 18, 19, 20, 21, 30]
NEXT_PLY = "PLY is not the number of plies played plus 1."

# Each route: method, path, operation id, summary, tag, schema of the reply, its content type, schema of the body, the
# refusals of the club and their meaning where it differs from the general one.
ROUTES = [
    ("get", "/play", "getPage", "Returns the members' page, without a key and also if the club is unavailable.", "page",
     "Page", HTML, None, {}),
    ("get", "/games/{id}", "getGame", "Returns a game.", "games", "Game", JSON, None, {53: None}),
    ("get", "/games/{id}/legal", "listLegalMoves", "Returns the legal moves of a game.", "games", "LegalMoves", JSON, None,
     {53: None}),
    ("get", "/games/{id}/clock", "getClock", "Returns the clock of a game.", "games", "Clock", JSON, None, {53: None}),
    ("get", "/games/{id}/rulings", "listRulings", "Returns the arbiter's rulings on a game.", "games", "Rulings", JSON,
     None, {53: None}),
    ("get", "/games/{id}/record", "getRecord", "Returns the record of a game, which may be running.", "games", "Record",
     PLAIN, None, {53: None}),
    ("get", "/games/{id}/page", "getGamePage", "Returns a game, its clock and its legal moves.", "games", "GamePage", JSON,
     None, {53: None}),
    *(("post", f"/analysis/{kind}", f"analyse{kind.title()}", f"Tries moves of {kind}. Nothing is stored.", "analysis",
       "Analysis", JSON, "AnalysisBody",
       {53: "No game of this kind has this id.", 65: "There are more than 64 moves, a text has more than 200 bytes, or the "
        "game has fewer plies."} | dict.fromkeys(refusals) |
       {56: "The line had ended before this move.", refusals[-1]: f"The position or a move is no text of {kind}."})
      for kind, refusals in (("draughts", [10, 11, 12, 21, 20]), ("shogi", [*range(13, 20), 30]))),
    ("post", "/games/{id}/moves/{ply}", "makeMove", "Makes a move.", "games", "Moved", JSON, "MoveBody",
     {53: None} | dict.fromkeys(MOVE_REFUSALS) |
     {57: "PLY is 0 or above the plies played plus 1.", 58: "The game has another move at PLY, or the opponent's.",
      65: "The text has more than 200 bytes."}),
    ("post", "/games/{id}/draw/{ply}/offer", "offerDraw", "Offers a draw in a game of draughts until the next move.",
     "games", "Offered", JSON, None,
     {53: None, 55: None, 63: None, 56: None, 57: NEXT_PLY, 58: "The opponent's offer exists."}),
    ("post", "/games/{id}/draw/{ply}/accept", "acceptDraw", "Accepts the opponent's offer of a draw.", "games", "Agreed",
     JSON, None, {53: None, 55: None, 63: None, 56: None, 57: NEXT_PLY, 62: None}),
    ("post", "/games/{id}/resign", "resign", "Resigns the game. Only the player to move can resign.", "games", "Resigned",
     JSON, None, {53: None, 55: None, 56: None, 59: None}),
    ("post", "/games/{id}/claim-time", "claimTime", "Claims a win because the player to move is out of time.", "games",
     "TimeClaimed", JSON, None, {53: None, 55: None, 56: None, 59: "The member is to move.", 61: None}),
    ("post", "/games/{id}/declare/{ply}", "declare", "Declares that the king has entered (shogi).", "games", "Declared",
     JSON, None, {53: None, 55: None, 56: None, 57: NEXT_PLY, 59: None, 67: None}),
    ("get", "/events/{name}/table", "getTable", "Returns the cross table of an event.", "events", "Table", PLAIN, None,
     {52: None}),
    ("get", "/events/{name}/games", "listEventGames", "Returns the games of an event.", "events", "EventGames", JSON, None,
     {52: None}),
    ("get", "/events/{name}/standings", "getStandings", "Returns the standings of an event.", "events", "Standings", JSON,
     None, {52: None}),
    ("post", "/challenges/{number}", "openChallenge", "Challenges a member to a game of an event.", "challenges",
     "ChallengeOpened", JSON, "ChallengeBody",
     {52: None, 58: "The member has another challenge under this number.",
      65: "The number is outside 1 to 9,999, or `other` is no other member.", 68: None}),
    ("post", "/challenges/{number}/withdraw", "withdrawChallenge", "Withdraws an open challenge of the member.",
     "challenges", "ChallengeWithdrawn", JSON, None, {54: None, 58: "The challenge was answered."}),
    ("post", "/answers/{member}/{number}", "answerChallenge", "Accepts a challenge, which starts a game, or refuses it.",
     "challenges", "ChallengeAnswer", JSON, "AnswerBody",
     {54: "MEMBER is unknown, has no challenge with this number, or the challenge is to another member.",
      58: "The challenge was withdrawn or has the other answer.", 66: None,
      68: "The event takes no challenges; this one can still be refused."}),
    ("get", "/me", "getMe", "Returns the member's running games and challenges.", "me", "Me", JSON, None, {}),
    ("get", "/me/ended", "listEndedGames", "Returns the member's ended games.", "me", "Ended", JSON, None, {}),
    ("get", "/me/events", "listEvents", "Returns the events and the members to challenge.", "me", "Events", JSON, None, {}),
]


def caching_headers(path, status):
    """The fields about caching of a reply. On a path with a number 404 may be that of no route, and have none; on one
    with a body 400 may be that of a head."""
    has_body = status == 400 and path in ANALYSES
    if path not in NO_STORE or status in REFUSED_HEAD and not has_body:
        return {}
    suffix = "-If-Found" if status == 404 or has_body else ""
    return {"Cache_Control": f"Cache-Control{suffix}", "X_Content_Type_Options": f"X-Content-Type-Options{suffix}"}


def headers(**more):
    found = {it: it for it in ("Content-Length", "Connection")} | {it.replace("_", "-"): of for it, of in more.items()}
    return {it: ref("headers", of) for it, of in found.items()}


def headers_of_error(method, path, status):
    more = {405: {"Allow": f"Allow{method.title()}"}, 401: {"WWW_Authenticate": "WWW-Authenticate"}}
    return headers(**more.get(status, {}), **caching_headers(path, status))


def error_reply(method, path, status, meanings, shared):
    """The reply of a status that stands for these errors, each with its meaning.

    It is in `shared`, and referred to, if the meanings are the general ones.
    """
    numbers = sorted(meanings)
    lines = [f"{number} {ERRORS[number][0]}: {meanings[number] or ERRORS[number][2]}" for number in numbers]
    options = [schema(f"Error{number}") for number in numbers]
    found = {"description": "\n".join([f"{PHRASES[status]}.", *lines]),
             "headers": headers_of_error(method, path, status),
             "content": {JSON: {"schema": options[0] if len(options) == 1 else {"oneOf": options}}}}
    if any(meanings.values()):
        return found
    name = "_".join(["Error", *map(str, numbers), *([method] if status == 405 else []),
                     *(["no_store"] if caching_headers(path, status) else [])])
    shared[name] = found
    return ref("responses", name)


def refusals_of(method, path, body, of_club):
    """The errors that an operation can return, each with its meaning if it is not the general one."""
    found = dict.fromkeys([80, 83, 85, 86, 87, 88])
    if method == "post":
        found[84] = None
    if body:
        found[81] = None
    if "{" in path:
        found[82] = None
    if path != "/play":
        found |= dict.fromkeys([50, *FAULTS])
    return found | of_club


def operation_of(shared, method, path, name, summary, tag, reply, kind, body, of_club):
    more = {"Content_Security_Policy": "Content-Security-Policy"} if kind == HTML else {}
    meaning = SCHEMAS[reply]["description"] + (" A repeated command has the same reply." if method == "post" and path not in ANALYSES else "")
    replies = {"200": {"description": meaning, "headers": headers(**more, **caching_headers(path, 200)),
                       "content": {kind: {"schema": schema(reply)}}}}
    by_status = {}
    for number, meaning in refusals_of(method, path, body, of_club).items():
        by_status.setdefault(ERRORS[number][1], {})[number] = meaning
    replies |= {str(status): error_reply(method, path, status, by_status[status], shared)
                for status in sorted(by_status)}
    found = {"operationId": name, "summary": summary, "tags": [tag]}
    if method == "post":
        found["description"] = "The request needs `Content-Length`." if body else \
            "The request has no body, and needs `Content-Length: 0`. The server ignores a body."
    if path == "/play":
        found["security"] = []
    parameters = [part[1:-1] for part in path.split("/") if part.startswith("{")]
    if parameters:
        found["parameters"] = [ref("parameters", it) for it in parameters]
    if body:
        found["requestBody"] = {"required": True, "content": {JSON: {"schema": schema(body)}}}
    return found | {"responses": replies}


def document():
    paths, shared = {}, {}
    for method, path, *rest in ROUTES:
        paths.setdefault(path, {})[method] = operation_of(shared, method, path, *rest)
    errors = {f"Error{number}": reply_object(
        meaning, error=constant(number, "The error number."), name=constant(name, "The error name."))
        for number, (name, _, meaning) in sorted(ERRORS.items())}
    return {
        "openapi": "3.1.0",
        "info": {"title": "Gathlwyro", "summary": "Correspondence games of a draughts and shogi club.",
                 "description": INFO, "version": "1.0.0"},
        "servers": [{"url": "http://127.0.0.1:{port}", "description": "The server of a club.",
                     "variables": {"port": {"default": "8080", "description": "The PORT of `serve`."}}}],
        "security": [{"MemberKey": []}],
        "tags": [{"name": "games", "description": "Games and commands on them."},
                 {"name": "analysis", "description": "Moves that are tried."},
                 {"name": "events", "description": "Events."},
                 {"name": "challenges", "description": "Challenges between members."},
                 {"name": "me", "description": "What concerns the member who has the key."},
                 {"name": "page", "description": "The page for a browser."}],
        "paths": paths,
        "components": {
            "securitySchemes": {"MemberKey": {
                "type": "apiKey", "in": "header", "name": "Member-Key",
                "description": "The member's key: 8 to 64 letters and digits. The field occurs exactly once."}},
            "parameters": {name: {"name": name, "in": "path", "required": True, "description": description,
                                  "schema": of} for name, (description, of) in PARAMETERS.items()},
            "headers": {name: {"description": description, "required": not name.endswith("-If-Found"), "schema": of}
                        for name, (description, of) in HEADERS.items()},
            "responses": {name: shared[name] for name in sorted(shared)},
            "schemas": SCHEMAS | errors,
        },
    }


def main():
    made = json.dumps(document(), indent=1, ensure_ascii=True) + "\n"
    if sys.argv[1:] == ["--check"]:
        return int(not FILE.is_file() or FILE.read_text() != made)
    FILE.write_text(made)
    return 0


if __name__ == "__main__":
    sys.exit(main())
