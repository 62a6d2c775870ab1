"""Tables at the limits: 2,000 programmes, 20,000 residents and 200,000 pairs, with names in a script that is asked for."""
import random
from pathlib import Path
from typing import Callable, List, Tuple

SYLLABLES = {
    "latin": ("ka", "lo", "mi", "ren", "sta", "vör", "zé", "hun", "dal", "pi", "ros", "əm", "Łu", "tan", "gri", "jo"),
    "han": tuple("王李张刘陈杨赵黄周吴徐孙胡朱高林何郭马罗梁宋郑谢韩唐冯于董萧程曹袁邓许傅沈曾彭吕"),
    "arabic": ("مح", "مد", "عل", "ي", "فا", "طم", "ة", "نو", "ر", "سل", "مى", "كر", "يم", "حد", "اد", "زي"),
    "devanagari": ("रा", "म", "सी", "ता", "वि", "का", "स", "प्री", "या", "अ", "मि", "त", "नी", "ल", "शा", "दे"),
}


def person(script: str, number: int) -> str:
    """A name that no other number has."""
    parts = SYLLABLES[script]
    digits = []
    rest = number
    for _ in range(6):
        rest, digit = divmod(rest, len(parts))
        digits.append(parts[digit])
    space = "" if script == "han" else " "
    return "".join(digits[:3]).title() + space + "".join(digits[3:]).title()


def lists(residents: int, programmes: int, each: int, seed: int) -> Tuple[List[List[int]], List[List[int]]]:
    """Lists of both sides, all of them mutual: each resident ranks `each` programmes, and these rank it."""
    chance = random.Random(seed)
    of_residents = [chance.sample(range(programmes), each) for _ in range(residents)]
    of_programmes: List[List[int]] = [[] for _ in range(programmes)]
    for resident, listed in enumerate(of_residents):
        for programme in listed:
            of_programmes[programme].append(resident)
    for listed in of_programmes:
        chance.shuffle(listed)
    return of_residents, of_programmes


def write_tables(
    folder: Path,
    script: str,
    residents: int = 20000,
    programmes: int = 2000,
    each: int = 10,
    long: bool = False,
    in_lists: Callable[[str], str] = str,
    seed: int = 1,
) -> Tuple[str, str]:
    """Writes both tables and answers their paths; `in_lists` changes how programmes write residents' names."""
    of_residents, of_programmes = lists(residents, programmes, each, seed)
    people = [person(script, number) for number in range(residents)]
    places = [f"{person(script, 3 * number)} – Hospital {number + 1}, Department of Medicine" for number in range(programmes)]
    quota = max(1, residents // programmes - 1)
    paths = folder / "programmes.csv", folder / "residents.csv"
    with open(paths[0], "w", encoding="utf-8", newline="") as file:
        if long:
            file.write("Programme;Places;Rank;Applicant\r\n")
            for programme, listed in enumerate(of_programmes):
                for rank, one in enumerate(listed, 1):
                    file.write(f"{places[programme]};{quota};{rank};{in_lists(people[one])}\r\n")
        else:
            most = max(map(len, of_programmes))
            file.write("Programme;Places;" + ";".join(f"Rank {rank}" for rank in range(1, most + 1)) + "\r\n")
            for programme, listed in enumerate(of_programmes):
                file.write(";".join([places[programme], str(quota)] + [in_lists(people[one]) for one in listed]) + "\r\n")
    with open(paths[1], "w", encoding="utf-8", newline="") as file:
        if long:
            file.write("Applicant;Rank;Programme\r\n")
            for resident, listed in enumerate(of_residents):
                for rank, one in enumerate(listed, 1):
                    file.write(f"{people[resident]};{rank};{places[one]}\r\n")
        else:
            file.write("Applicant;" + ";".join(f"Rank {rank}" for rank in range(1, each + 1)) + "\r\n")
            for resident, listed in enumerate(of_residents):
                file.write(";".join([people[resident]] + [places[one] for one in listed]) + "\r\n")
    return str(paths[0]), str(paths[1])
