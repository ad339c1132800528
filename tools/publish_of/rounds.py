"""The rounds of an event whose games have the keys of a round robin: PREFIX, the round, `.` and the board."""
import re

NUMBER = r"([1-9][0-9]?)"
PLACE = re.compile(rf"{NUMBER}\.{NUMBER}")


def places_of(key):
    """Each prefix that a key may have, with the round and the board."""
    for at in range(len(key)):
        found = PLACE.fullmatch(key, at)
        if found:
            yield key[:at], (int(found[1]), int(found[2]))


def rounds_of(places):
    """The rounds of games at places, by number, or nothing if these are no rounds.

    Rounds and boards count from 1, and nobody plays twice in a round.
    """
    numbers = sorted({number for number, _ in places})
    rounds = [[places[it] for it in sorted(places) if it[0] == number] for number in numbers]
    boards = [sorted(board for it, board in places if it == number) for number in numbers]
    players = [[name for it in games for name in it.game.players] for games in rounds]
    is_whole = numbers == list(range(1, len(numbers) + 1))
    is_whole = is_whole and all(it == list(range(1, len(it) + 1)) for it in boards)
    return rounds if is_whole and all(len(it) == len(set(it)) for it in players) else []


def round_robins(games):
    """The round robins of an event, the largest first: each its prefix and its rounds."""
    candidates = {}
    for it in games:
        for prefix, place in places_of(it.game.key):
            candidates.setdefault(prefix, {})[place] = it
    found, left = [], {it.game.id for it in games}
    for prefix, places in sorted(candidates.items(), key=lambda it: (-len(it[1]), it[0])):
        rounds = rounds_of(places)
        ids = {it.game.id for it in places.values()}
        if rounds and ids <= left:
            found.append((prefix, rounds))
            left -= ids
    return found
