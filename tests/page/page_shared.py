"""Moves and sizes that several cases of the page use."""


AMBIGUOUS = """33-29 20-25 29-23 19x28 32x23 18x29 34x23 16-21 39-33 21-26 23-18 12x23 43-39 17-21 48-43 13-19 37-32
    26x48 40-34 23-28 33x22 9-13 38-33 4-9 47-42""".split()
WHOLE_SHOGI = "7g7f 3c3d 8h2b+ 3a2b B*4e 8c8d 4e6c 2a3c 6c4a+ 5a6b G*6c".split()
OPENINGS = {"draughts": "32-28 19-23 28x19 14x23 37-32 10-14".split(), "shogi": "7g7f 3c3d 8h2b+ 3a2b".split()}
PHONE = 360
