"""What mails and calendars say, in each language."""
import time

LANGUAGES = "en", "de", "nl", "ja", "fr"

# In the order of LANGUAGES.
TEXTS = {
    "turn": (
        "Your turn against {opponent} ({event}, game {game})",
        "Sie sind am Zug gegen {opponent} ({event}, Partie {game})",
        "U bent aan zet tegen {opponent} ({event}, partij {game})",
        "{opponent}さんとの対局：あなたの手番です（{event}、対局{game}）",
        "À vous de jouer contre {opponent} ({event}, partie {game})"),
    "left": (
        "Less than two days left against {opponent} ({event}, game {game})",
        "Weniger als zwei Tage übrig gegen {opponent} ({event}, Partie {game})",
        "Minder dan twee dagen over tegen {opponent} ({event}, partij {game})",
        "{opponent}さんとの対局：残り2日を切りました（{event}、対局{game}）",
        "Moins de deux jours restants contre {opponent} ({event}, partie {game})"),
    "end": (
        "Game ended: {first} - {second} {result} ({event}, game {game})",
        "Partie beendet: {first} - {second} {result} ({event}, Partie {game})",
        "Partij afgelopen: {first} - {second} {result} ({event}, partij {game})",
        "終局：{first} - {second} {result}（{event}、対局{game}）",
        "Partie terminée : {first} - {second} {result} ({event}, partie {game})"),
    "challenged": (
        "{opponent} challenges you ({event})",
        "{opponent} fordert Sie heraus ({event})",
        "{opponent} daagt u uit ({event})",
        "{opponent}さんから挑戦が届きました（{event}）",
        "{opponent} vous lance un défi ({event})"),
    "accepted": (
        "{opponent} accepts your challenge ({event}, game {game})",
        "{opponent} nimmt Ihre Herausforderung an ({event}, Partie {game})",
        "{opponent} neemt uw uitdaging aan ({event}, partij {game})",
        "{opponent}さんが挑戦を受けました（{event}、対局{game}）",
        "{opponent} accepte votre défi ({event}, partie {game})"),
    "refused": (
        "{opponent} declines your challenge ({event})",
        "{opponent} lehnt Ihre Herausforderung ab ({event})",
        "{opponent} wijst uw uitdaging af ({event})",
        "{opponent}さんが挑戦を断りました（{event}）",
        "{opponent} refuse votre défi ({event})"),
    "started": (
        "Challenge accepted: game {game} against {opponent} begins ({event})",
        "Herausforderung angenommen: Partie {game} gegen {opponent} beginnt ({event})",
        "Uitdaging aangenomen: partij {game} tegen {opponent} begint ({event})",
        "挑戦成立：{opponent}さんとの対局{game}が始まりました（{event}）",
        "Défi accepté : la partie {game} contre {opponent} commence ({event})"),
    "players": (
        "{kind}: {first} (first) - {second}",
        "{kind}: {first} (beginnt) - {second}",
        "{kind}: {first} (begint) - {second}",
        "{kind}：{first}（先手） - {second}（後手）",
        "{kind} : {first} (commence) - {second}"),
    "until": (
        "Your move is due by {until}.",
        "Ihr Zug muss bis {until} erfolgen.",
        "Uw zet moet gedaan zijn vóór {until}.",
        "指し手の期限：{until}",
        "Votre coup est attendu avant le {until}."),
    "reason": ("Reason: {end}.", "Grund: {end}.", "Reden: {end}.", "理由：{end}", "Motif : {end}."),
    "page": (
        "The club's page: {url}", "Die Seite des Vereins: {url}", "De pagina van de club: {url}", "クラブのページ：{url}",
        "La page du club : {url}"),
    "draughts": ("Draughts", "Dame", "Dammen", "国際ドラフツ", "Dames"),
    "shogi": ("Shogi", "Shogi", "Shogi", "将棋", "Shogi"),
    "NoMove": (
        "no move left", "kein Zug mehr möglich", "geen zet meer mogelijk", "指せる手がない",
        "plus de coup possible"),
    "Repetition": (
        "threefold repetition", "dreifache Stellungswiederholung", "driemaal dezelfde stand", "同一局面3回",
        "triple répétition"),
    "KingMoves": (
        "25 king moves without a capture", "25 Damenzüge ohne Schlag", "25 damzetten zonder slag",
        "キングの手のみ・駒取りなしで双方25手", "25 coups de dames sans prise"),
    "ThreeToOne": (
        "16 moves with three pieces against a king", "16 Züge mit drei Steinen gegen eine Dame",
        "16 zetten met drie om één", "3枚対キング1枚で双方16手", "16 coups à trois pièces contre une dame"),
    "TwoToOne": (
        "5 moves with at most two pieces against a king", "5 Züge mit höchstens zwei Steinen gegen eine Dame",
        "5 zetten met hooguit twee om één", "2枚以下対キング1枚で双方5手",
        "5 coups à deux pièces au plus contre une dame"),
    "PlyLimit": (
        "limit of 600 plies", "Grenze von 600 Halbzügen", "grens van 600 halve zetten", "最大手数600手",
        "limite de 600 demi-coups"),
    "PerpetualCheck": ("perpetual check", "Dauerschach", "eeuwig schaak", "連続王手の千日手", "échec perpétuel"),
    "Fourfold": (
        "fourfold repetition", "vierfache Stellungswiederholung", "viermaal dezelfde stand", "千日手",
        "quadruple répétition"),
    "Agreed": ("by agreement", "Vereinbarung", "in onderling overleg", "合意", "d’un commun accord"),
    "Resigned": ("by resignation", "Aufgabe", "opgave", "投了", "abandon"),
    "Time": ("on time", "Zeitüberschreitung", "tijdsoverschrijding", "時間切れ", "temps dépassé"),
    "Declared": (
        "by declaration of the entered king", "Königseintritt", "koningsintrede", "入玉宣言", "entrée du roi"),
    "Void": (
        "the game does not count", "die Partie zählt nicht", "de partij telt niet", "無効", "la partie ne compte pas"),
    "Awarded": ("by the arbiter", "Entscheidung des Schiedsrichters", "door de arbiter", "裁定", "décision de l’arbitre"),
    "Recorded": ("as recorded", "laut Notation", "volgens notatie", "棋譜による", "selon la notation"),
}


def text(language, name):
    """A text in a language. A name that has none is its own text: an end that a later program has."""
    found = TEXTS.get(name)
    return found[LANGUAGES.index(language)] if found else name


def date(seconds):
    return time.strftime("%Y-%m-%d %H:%M UTC", time.gmtime(seconds))


def mail_text(language, notice, url):
    """The subject and the body of a notice's mail."""
    values = {**notice.values, "kind": text(language, notice.values["kind"])}
    subject = text(language, notice.text).format(**values)
    lines = [subject, "", text(language, "players").format(**values)]
    if notice.text in ("turn", "left") and values["until"] is not None:
        lines.append(text(language, "until").format(until=date(values["until"])))
    if notice.text == "end":
        lines.append(text(language, "reason").format(end=text(language, values["end"])))
    if url:
        lines += ["", text(language, "page").format(url=url)]
    return subject, "\n".join(lines) + "\n"


def calendar_text(language, game, opponent, kind):
    """The summary and the description of a deadline."""
    values = {"opponent": opponent, "event": game.event, "game": game.id, "kind": text(language, kind),
              "first": game.first, "second": game.second}
    until = text(language, "until").format(until=date(game.deadline))
    return text(language, "turn").format(**values), f"{text(language, 'players').format(**values)}\n{until}"
