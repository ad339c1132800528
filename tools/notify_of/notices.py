"""Which events of a club are mailed, and to whom."""
from dataclasses import dataclass, field

TWO_DAYS = 2 * 86400
BY_CHALLENGE = "="  # the key of a game that a challenge started


@dataclass
class Notice:
    """One mail: the member who receives it, its text's name, and what is filled in.

    `key` names the event in the state file, and `covers` the events of which this mail informs as well.
    """

    key: str
    member: str
    text: str
    values: dict
    covers: list = field(default_factory=list)
    is_past: bool = False  # an event that lasts: it is not mailed if it happened before the first run


def values_of(game, member, kinds):
    return {"game": game.id, "event": game.event, "kind": kinds.get(game.event, ""), "first": game.first,
            "second": game.second, "opponent": game.opponent(member), "ply": game.ply, "until": game.deadline,
            "end": game.end, "result": game.result}


def running_key(game):
    """The key in the state file of a game that was seen running."""
    return f"running {game.id}"


def accepted_key(game, member):
    """The key of an accepted challenge where the program does not list challenges."""
    return f"accepted {game} {member}"


def turn_notices(game, kinds, state, now):
    """Whose turn it is, and later that two days are left. A game whose player is out of time has neither."""
    if game.deadline is not None and game.deadline < now:
        return
    values, turn, left = values_of(game, game.turn, kinds), f"turn {game.id} {game.ply}", f"left {game.id} {game.ply}"
    is_near = game.deadline is not None and game.deadline - now <= TWO_DAYS
    yield Notice(turn, game.turn, "turn", values, [left] if is_near else [])
    if is_near and turn in state.sent:
        yield Notice(left, game.turn, "left", values)


def end_notices(game, kinds, state):
    """The end of a game, for both players. An imported game was never seen running, and has none."""
    if running_key(game) in state.sent or game.key == BY_CHALLENGE or f"end {game.id} {game.first}" in state.sent:
        for member in game.players:
            yield Notice(f"end {game.id} {member}", member, "end", values_of(game, member, kinds), is_past=True)


def accepted_notices(game, kinds):
    """An accepted challenge, for both players, because the program does not list who challenged."""
    for member in game.players:
        values = values_of(game, member, kinds)
        yield Notice(accepted_key(game.id, member), member, "started", values, is_past=True)


def challenge_notices(challenge, kinds):
    """An open challenge for the member who is challenged, an answered one for the challenger."""
    other = challenge.opponent if challenge.first == challenge.challenger else challenge.challenger
    values = {"event": challenge.event, "kind": kinds.get(challenge.event, ""), "number": challenge.number,
              "first": challenge.first, "second": other, "game": challenge.game}
    place = f"{challenge.challenger} {challenge.number}"
    if challenge.state == "open":
        yield Notice(f"challenge {place}", challenge.opponent, "challenged",
                     {**values, "opponent": challenge.challenger})
    elif challenge.state in ("accepted", "refused"):
        members = (challenge.challenger, challenge.opponent) if challenge.state == "accepted" else ()
        yield Notice(f"answer {place}", challenge.challenger, challenge.state,
                     {**values, "opponent": challenge.opponent}, [accepted_key(challenge.game, it) for it in members],
                     is_past=True)


def notices(club, state, now):
    """All notices of which the club has the event now, sent or not."""
    for game in club.games:
        if game.key == BY_CHALLENGE and club.challenges is None:
            yield from accepted_notices(game, club.kinds)
        if game.turn is None:
            yield from end_notices(game, club.kinds, state)
        else:
            yield from turn_notices(game, club.kinds, state, now)
    for challenge in club.challenges or ():
        yield from challenge_notices(challenge, club.kinds)


def first_notices(found, state):
    """The keys of events that are not mailed because they are older than the state file, or, for answers to challenges,
    older than the first run that read challenges."""
    past = [it for it in found if it.is_past and (state.is_new or it.key.startswith("answer "))]
    is_first = state.is_new or not state.has_challenges
    return [key for it in past for key in (it.key, *it.covers)] if is_first else []
