"""The standings of an event from its games, by docs/rules.md."""
POINTS = {"2-0": (2, 0), "1-1": (1, 1), "0-2": (0, 2)}


def standings(members, games):
    """The lines in the order of places. `members` are in the order of their numbers; of each game there are both players,
    and the result or None while it is running."""
    scored = [(players[side], players[1 - side], POINTS[result][side])
              for *players, result in games if result for side in (0, 1)]
    totals = {member: sum(points for one, _, points in scored if one == member) for member in members}

    def line(member):
        mine = [points for one, _, points in scored if one == member]
        return {"draws": mine.count(1), "games": len(mine), "losses": mine.count(0), "member": member,
                "points": totals[member], "running": sum(member in players for *players, result in games if not result),
                "sonneborn_berger": sum(points * totals[other] for one, other, points in scored if one == member),
                "wins": mine.count(2)}

    lines = [line(member) for member in members if any(member in players for *players, _ in games)]
    lines.sort(key=lambda it: (-it["points"], -it["wins"], -it["sonneborn_berger"]))  # a stable sort keeps the numbers' order
    return [{**it, "place": place} for place, it in enumerate(lines, 1)]
