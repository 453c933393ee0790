"""The lists of worked_lists.txt, which are played by hd and by the model."""
import os
import re

from model import Field, Type
from player import Call, Database, Game, deck

HERE = os.path.dirname(os.path.abspath(__file__))


def sample(books):
    """The sample database, with books of these RULES, or of a length that varies."""
    number, edition, person = Field("NUM", 1, 3), Field("ED", 1, 2), Field("SNAME", 1, 4)
    course = Type(1, "COURSE", None, 8, key=number, unique=True, fields=[number])
    clas = Type(2, "CLASS", course, 4, key=edition, unique=True, fields=[edition])
    student = Type(3, "STUD", clas, 6, key=person, fields=[person])
    book = Type(4, "BOOK", course, 9, 4) if books == "VARYING" else Type(4, "BOOK", course, 5, rule=books)
    return Database("EDU", [course, clas, student, book], backward=(course, clas, book), last=(course, clas, book))


def program(name, types):
    """The sample's program, whose first PCB may get paths, and whose third sees no students; or PCBs of these letters."""
    seen = dict.fromkeys(types)
    if name != "EDUP":
        return [(letters, seen) for letters in name.split("+")]
    return [("AP", seen), ("A", seen), ("A", {type: None for type in types if type.name != "STUD"})]


def unescaped(text):
    return re.sub(rb"\\x(..)", lambda digits: bytes.fromhex(digits[1].decode()), text)


def lists():
    """Games, each with the answers that are wanted of its calls."""
    games = []
    with open(os.path.join(HERE, "worked_lists.txt"), "rb") as file:
        text = file.read()
    for line in text[text.index(b"\n=") :].split(b"\n"):
        if line.startswith(b"="):
            books, name, blocks, rows = (line + b" ").decode()[2:].split(" ", 3)
            database = sample(books)
            rows = [(int(row[:1]), unescaped(row[2:])) for row in rows[:-1].encode().split(b"/") if row]
        if line[:1] in (b"=", b"%"):
            game = Game(database, program(name, database.types), rows, [], int(blocks), caches=(1, 2, 64, None))
            game.answers = []
            games.append(game)
        elif line and not line.startswith(b"*"):
            call, area, answer = (line + b";;").split(b";")[:3]
            _, *ssas = call.split(b"/")
            area = bytes.fromhex(area[1:].decode()) if area.startswith(b"#") else area
            game.calls.append(Call(int(call[:1]), call[2:6].rstrip(), ssas, area))
            game.answers.append(answer)
    return games


def fault(hd, game):
    """What is wrong with a play of a list; None where nothing is."""
    wrong = game.fault(hd) if game.calls else "a list without calls"
    for call, line, answer in zip(game.calls, game.told, game.answers):
        _, _, told = line.partition(b"%-4b " % call.function)
        whole = answer[4:5] == b" "
        if told.startswith(b"[!!] "):
            told = told[5:]
        elif not whole:
            told = told[:4] + told.partition(b" area=")[2]
        if not wrong and (told != answer or not answer):
            wrong = f"{line.decode()} is not the answer {answer.decode()}"
    return wrong


def is_of_program(game):
    """Whether a list is played over the sample of hd itself."""
    types = game.database.types
    return game.blocks == 16 and len(game.rows) == 7 and types[3].rule == "HERE" and game.pcbs == program("EDUP", types)


def fault_in_memory(hd, game):
    """What is wrong with a play of a list over the sample that hd has in memory."""
    done = hd.run(text=deck(game.calls))
    return None if done == (0, b"".join(line + b"\n" for line in game.told)) else f"over the sample in memory: {done}"
