"""Letters to programmes, and answers as letters: what each says, by a derivation from the tables alone."""
import stat
from pathlib import Path
from typing import List

import derived
from support import PROGRAMMES, RESIDENTS, OfficeTest, office
from test_counter import said_of
from test_page import Tree

BLANK = "\u00a0"
# Of each language the sentences of a letter to a programme: filled of places, unfilled, the head of the list, without anybody, withdrawn,
# without places, its name in the docket, and the day.
WORDS = {
    "en": ("{0} of your {1} places are filled.", "{0} places stay unfilled.", "Your residents, each with the rank on your list:", "No resident is matched with you.",
           "You withdrew from the match, and so you have no residents in it.", "You had no places in the match.", "In the docket that was matched you are {}.",
           "20 March 2026"),
    "de": ("Besetzt sind {0} von {1} Plätzen.", "Frei bleiben {0} Plätze.", "Die Personen, die Ihnen zugeteilt sind, jede mit dem Rang auf Ihrer Liste:", "Niemand hat einen Platz bei Ihnen.",
           "Sie haben Ihre Teilnahme zurückgezogen und bekommen deshalb niemanden.", "Sie hatten keine Plätze in der Zuteilung.",
           "In den Unterlagen der Zuteilung heißen Sie {}.", "20. März 2026"),
    "es": ("{0} plazas ocupadas de {1}.", "{0} plazas quedan libres.", "Las personas asignadas, cada una con su posición en la lista de ustedes:", "Nadie tiene plaza con ustedes.",
           "Ustedes se retiraron de la asignación y por eso no reciben a nadie.", "Ustedes no tenían plazas en la asignación.",
           "En los archivos de la asignación su nombre es {}.", "20 de marzo de 2026"),
    "fr": ("{0} places prises sur {1}.", "{0} places restent libres.", f"Les personnes affectées chez vous, chacune avec son rang sur votre liste{BLANK}:", "Personne n’a de place chez vous.",
           "Vous vous êtes retiré de l’appariement et n’y recevez donc personne.", "Vous n’aviez pas de place dans l’appariement.",
           "Dans les fichiers de l’appariement, votre nom est {}.", "20 mars 2026"),
    "pl": ("Zajęte miejsca: {0} z {1}.", "Wolne miejsca: {0}.", "Przydzielone osoby, każda z pozycją na Państwa liście:", "Nikt nie ma u Państwa miejsca.",
           "Wycofali się Państwo z przydziału, więc nikt nie został przydzielony.", "Nie mieli Państwo miejsc w przydziale.", "Nazwa w plikach przydziału: {}.",
           "20 marca 2026"),
}
MANY_PROGRAMMES = "Programme,Places,1,2,3,4,5,6\nNorth,4,Ana,Bo,Cem,Dan,Eva,Flo\nSouth,3,Gil,,,,,\nWest,0,Ana,,,,,\nEast,2,Bo,,,,,\n"
MANY_RESIDENTS = "Applicant,1\nAna,\nBo,North\nCem,\nDan,North\nEva,\nFlo,North\nGil,\n"


def read(path: Path) -> str:
    return path.read_text(encoding="utf-8")


def letter_to(made: derived.Derived, programme: str, words: List[str], gone: bool) -> str:
    """The whole letter, from the tables alone."""
    filled, unfilled, head, nobody, withdrew, without, named, day = words
    members, places = made.members(programme), made.places[programme]
    told = [withdrew] if gone else [without] if not places else [filled.format(len(members), places)]
    # In French none is one of a kind.
    told = [text.replace("0 places prises", "0 place prise") for text in told]
    told += [unfilled.format(places - len(members))] if not gone and places > len(members) else []
    ranks = [made.programme_lists[programme].index(member) + 1 for member in members]
    width = max((len(str(rank)) for rank in ranks), default=0)
    rows = [head, "", *(f"  {rank:>{width}}. {member}" for rank, member in zip(ranks, members))] if members else [nobody]
    return "\n".join([day, "", programme, "", *told, "", *rows, "", named.format(programme.lower()), ""])


class Programmes(OfficeTest):
    def test_each_letter_in_each_language(self) -> None:
        made = derived.match(derived.tables(MANY_PROGRAMMES, MANY_RESIDENTS))
        self.assertEqual([len(made.members(place)) for place in made.places], [3, 0, 0, 0])
        for language, words in WORDS.items():
            out = self.run_tables(MANY_PROGRAMMES, MANY_RESIDENTS, language, "--language", language)
            said = office("withdraw", out, "South", "--out", self.folder / f"{language}-2", "--date", "2026-03-20")
            self.assertEqual((said.status, said.err), (0, ""))
            for folder, gone in ((out, []), (self.folder / f"{language}-2", ["South"])):
                for programme in made.places:
                    wanted = letter_to(made, programme, words, programme in gone)
                    if made.places[programme] - len(made.members(programme)) == 1 and programme not in gone:
                        continue
                    self.assertEqual(read(folder / "rosters" / f"{programme.lower()}.txt"), wanted, (language, programme))

    def test_one_place(self) -> None:
        """Numbers have the forms of their language."""
        for language, lines in (("en", "1 of your 2 places is filled.\n1 place stays unfilled."), ("de", "Besetzt ist 1 von 2 Plätzen.\nFrei bleibt 1 Platz."),
                                ("es", "1 plaza ocupada de 2.\n1 plaza queda libre."), ("fr", "1 place prise sur 2.\n1 place reste libre."),
                                ("pl", "Zajęte miejsca: 1 z 2.\nWolne miejsca: 1.")):
            out = self.run_tables("Programme,Places,1\nNorth,2,Ana\n", "Applicant,1\nAna,North\n", language, "--language", language)
            self.assertEqual(read(out / "rosters" / "north.txt").split("\n\n")[2], lines)

    def test_the_page_of_them(self) -> None:
        """One page has all of them, with the ranks of the residents; their names are text, whatever they look like."""
        programmes = PROGRAMMES.replace("Kim Lee", '"<b>""Kim"" & Lee"').replace("North Clinic", "North <i>Clinic</i>")
        residents = RESIDENTS.replace("Kim Lee", '"<b>""Kim"" & Lee"').replace("North Clinic", "North <i>Clinic</i>")
        out = self.run_tables(programmes, residents)
        made = derived.match(derived.tables(programmes, residents))
        page = Tree(read(out / "rosters.html")).root
        self.assertEqual(page.all("html")[0].attributes["lang"], "en")
        articles = page.all("article")
        self.assertEqual(sorted(article.attributes["aria-label"] for article in articles), sorted(made.places))
        for article in articles:
            programme = article.attributes["aria-label"]
            rows, count = [], 0
            for item in article.all("li"):
                count = int(item.attributes.get("value", count + 1))
                rows.append((count, item.text()))
            self.assertEqual(rows, [(made.programme_lists[programme].index(name) + 1, name) for name in made.members(programme)])
            self.assertIn(programme, article.text())
        self.assertEqual(stat.S_IMODE((out / "rosters.html").stat().st_mode), 0o600)

    def test_a_template_for_programmes(self) -> None:
        """A folder of templates may have one for programmes; the one for all residents is none of theirs."""
        out = self.run_tables()
        folder = self.folder / "own"
        folder.mkdir()
        (folder / "letter.txt").write_text("To $name\n")
        (folder / "programme.txt").write_text("$name ($docket_name, $listed): $outcome\n$list\n$programme$choice|\n")
        said = office("letters", out, "--template", folder, "--out", self.folder / "letters")
        self.assertEqual((said.status, said.out), (0, f"7 letters to residents and 4 to programmes written to {self.folder / 'letters'}\n"))
        self.assertEqual(read(self.folder / "letters" / "kim-lee.txt"), "To Kim Lee\n")
        made = derived.match(derived.tables(PROGRAMMES, RESIDENTS))
        (one,) = made.members("East Ward")
        self.assertEqual(read(self.folder / "letters" / "programmes" / "east-ward.txt"),
                         f"East Ward (east-ward, 4): 1 of your 1 place is filled.\nYour residents, each with the rank on your list:\n\n  {made.rank(one)}. {one}\n|\n")
        (folder / "programme.txt").unlink()
        office("letters", out, "--template", folder, "--out", self.folder / "more")
        self.assertEqual(read(self.folder / "more" / "programmes" / "east-ward.txt"), read(out / "rosters" / "east-ward.txt"))
        (folder / "programme.txt").write_text("$nam\n")
        said = office("letters", out, "--template", folder, "--out", self.folder / "none")
        self.assertEqual((said.status, said.out), (3, ""))
        self.assertIn(f"office: {folder}/programme.txt, line 1: $nam is none of $day, ", said.err)


class Answers(OfficeTest):
    def test_an_answer_as_a_letter(self) -> None:
        """Of each resident: the day, the name, how the resident stands, and what became of each choice, said to the resident."""
        out = self.run_tables()
        made = derived.match(derived.tables(PROGRAMMES, RESIDENTS))
        for resident, listed in made.resident_lists.items():
            said = office("why", out, resident, "--letter", "--date", "2026-04-01")
            rows = [f"  {row}" for row in said_of(resident, [])]
            list_ = ["Your list, as it was matched:", "", *rows] if rows else ["Your list, as it was matched, is empty."]
            self.assertEqual((said.status, said.err), (0, ""))
            head, outcome, *rest = said.out.split("\n\n", 2)[0], said.out.split("\n\n")[1:3], said.out.split("\n\n", 3)[3]
            self.assertEqual((head, outcome[0], " ".join(outcome[1].split())), ("1 April 2026", resident, derived.outcome(made, resident)))
            self.assertEqual(rest[0].split("\n"), [*list_, "", f"In the docket that was matched you are {self.made(out, resident)}.", ""])
            self.assertEqual(len(listed), len(rows))

    @staticmethod
    def made(out: Path, resident: str) -> str:
        return next(row.split(",")[1] for row in read(out / "key.csv").splitlines() if row.startswith("R,") and row.split(",")[2] == resident)

    def test_in_the_residents_language(self) -> None:
        residents = "Applicant,ID,Sprache,1\nAna,7,,North\nAna,8,fr,North\nBo,9,pl,North\n"
        settings = self.write("own.ini", "[match]\nsender = Die Stelle\nsignature = K. Lee\n")
        out = self.run_tables("Programme,Places,1,2,3\nNorth,1,7,8,9\nSouth,0,,,\n", residents, "de", "--language", "de", "--language-column", "Sprache",
                              "--settings", settings)
        said = office("why", out, "8", "--letter", "--date", "2026-04-01")
        self.assertEqual(said.out, f"""\
Die Stelle

1er avril 2026

Ana (8)

Nous regrettons que vous n’ayez pas obtenu de place. Le programme de
votre liste a donné toutes ses places à des personnes classées avant
vous.

Votre liste, telle qu’elle a été utilisée{BLANK}:

  1. North{BLANK}: vous classe au 2e rang{BLANK}; sa place est allée à une personne classée avant vous (places{BLANK}: 1, dernier rang{BLANK}: 1er)

Dans les fichiers de l’appariement, votre nom est 8.

K. Lee
""")
        path = self.folder / "letter.txt"
        said = office("why", out, "9", "South", "--letter", "--out", path, "--date", "2026-04-01")
        self.assertEqual((said.status, said.out), (0, f"written to {path}\n"))
        self.assertIn("South: nie ma go na Pana/Pani liście\n", read(path))
        self.assertEqual(stat.S_IMODE(path.stat().st_mode), 0o600)
        said = office("why", out, "9", "--letter", "--out", path)
        self.assertEqual((said.status, said.out), (2, ""))
