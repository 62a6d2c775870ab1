"""Languages: what the office hands out in each, by hand; files of phrases at fault; and a language for each resident."""
import csv
import io
import json
import re
from datetime import date
from pathlib import Path
from typing import Dict, List

from residency.office.faults import FaultsError
from residency.office.phrases import FOLDER, english, languages, named, read_phrases
from residency.office.sentences import said_by
from support import PROGRAMMES, RESIDENTS, OfficeTest, office
from test_page import Tree

BLANK, NARROW = "\u00a0", "\u202f"
# Of each language by hand: how some numbers, a part, ordinals and a day are written, and how names sort.
WRITTEN = {
    "en": ("1,234,567", "57%", ["1st", "2nd", "3rd", "4th", "11th", "12th", "13th", "21st", "112th"], ["1 March 2026", "20 May 2026"]),
    "de": ("1.234.567", f"57{BLANK}%", ["1.", "2.", "3.", "4.", "11.", "12.", "13.", "21.", "112."], ["1. März 2026", "20. Mai 2026"]),
    "es": ("1.234.567", f"57{BLANK}%", ["1.ª", "2.ª", "3.ª", "4.ª", "11.ª", "12.ª", "13.ª", "21.ª", "112.ª"], ["1 de marzo de 2026", "20 de mayo de 2026"]),
    "fr": (f"1{NARROW}234{NARROW}567", f"57{BLANK}%", ["1er", "2e", "3e", "4e", "11e", "12e", "13e", "21e", "112e"], ["1er mars 2026", "20 mai 2026"]),
    "pl": (f"1{BLANK}234{BLANK}567", "57%", ["1.", "2.", "3.", "4.", "11.", "12.", "13.", "21.", "112."], ["1 marca 2026", "20 maja 2026"]),
}
SORTED = {
    "en": ["Łan", "Lane", "Lánik", "Nañez", "Nanze"], "de": ["Äbel", "Abend", "Aber", "Straße", "Strasser"],
    "es": ["Nano", "Nánz", "Nu", "Ñandú", "Oca"], "fr": ["Eco", "École", "Ecu"], "pl": ["Lot", "Lwów", "Łan", "Łoś", "Mak", "Zez", "Źle", "Żak"],
}
# How many of a thing, in the languages with more than two forms, or with another first one.
COUNTED = {"pl": {0: "osób", 1: "osoba", 2: "osoby", 4: "osoby", 5: "osób", 12: "osób", 14: "osób", 22: "osoby", 25: "osób", 112: "osób", 102: "osoby"},
           "fr": {0: "personne", 1: "personne", 2: "personnes"}, "en": {0: "residents", 1: "resident", 2: "residents"},
           "de": {0: "Personen", 1: "Person", 2: "Personen"}, "es": {0: "personas", 1: "persona", 2: "personas"}}
# Of each language the words of another form of address than its own, and of one for a single reader where a programme is several.
OTHER_ADDRESS = {
    "de": r"\b([Dd]u|[Dd]ir|[Dd]ich|[Dd]ein\w*|[Ee]uch|[Ee]uer)\b", "fr": r"\b([Tt]u|[Tt]oi|[Tt]on|[Tt]es)\b|\bt’",
    "es": r"\b([Tt]ú|[Tt]us?|[Tt]e|[Tt]i|[Vv]uestr\w*|[Oo]s)\b", "pl": r"\b([Tt]y|Ci|Cię|Tob\w*|[Tt]w[oó]j\w*|\w*(?:asz|esz|isz|ysz)|jesteś|\w+[łl][aeo]ś)\b",
}
OF_ONE = {"es": r"\busted\b|\ble\b|\b(?:Abra|Elija|Compare)\b", "pl": r"\bPan(?:a|u|i)?\b|\bProszę\b"}
LETTER = """\
1. März 2026

Omar Haddad

Es tut uns leid, dass Sie keinen Platz bekommen haben. Beide Programme
auf Ihrer Liste haben alle Plätze an Personen gegeben, die dort vor
Ihnen stehen.

Ihre Liste, wie sie verwendet wurde:

  1. East Ward: hat alle Plätze an Personen gegeben, die dort vor Ihnen stehen
  2. South Hospital: hat alle Plätze an Personen gegeben, die dort vor Ihnen stehen

In den Unterlagen der Zuteilung heißen Sie omar-haddad.
"""
FRENCH = f"""\
1er mars 2026

Ana Silva

Vous avez une place{BLANK}: South Hospital.
C’est le 1er choix de votre liste, qui en compte 2.

Votre liste, telle qu’elle a été utilisée{BLANK}:

  1. South Hospital{BLANK}: vous avez une place ici
  2. North Clinic{BLANK}: sans objet, car vous avez une place que vous préférez

Dans les fichiers de l’appariement, votre nom est ana-silva.
"""


def text_of(language: str) -> str:
    return (FOLDER / f"{language}.txt").read_text(encoding="utf-8")


def rows(path: Path) -> List[List[str]]:
    return list(csv.reader(io.StringIO(path.read_text(encoding="utf-8-sig"), newline="")))


class Files(OfficeTest):
    def test_each_language(self) -> None:
        """Each has every phrase, and nothing more, with a text of its own; numbers, days and names are as by hand."""
        self.assertEqual(languages(), sorted(WRITTEN))
        for language, (number, part, ordinals, days) in WRITTEN.items():
            one = read_phrases(text_of(language), language)
            self.assertEqual((one.language, set(one.texts)), (language, set(english().texts)))
            self.assertEqual((one.number(1234567), one.percent(4, 7)), (number, part))
            self.assertEqual([one.ordinal(count) for count in (1, 2, 3, 4, 11, 12, 13, 21, 112)], ordinals)
            self.assertEqual([one.day(day) for day in (date(2026, 3, 1), date(2026, 5, 20))], days)
            self.assertEqual(sorted(reversed(SORTED[language]), key=one.alphabetical), SORTED[language])
            for count, word in COUNTED[language].items():
                self.assertEqual(one.say("page.matched-told", count=count, order="x"), f"{count} {word}, x")
        same = {key for key, said in english().texts.items() if re.search("[a-z]{5}", re.sub(r"\{[^}]*\}", "", said))
                and sum(named(other).texts[key] == said for other in languages()) > 2}
        self.assertEqual(same - {"page.programmes", "page.link.programmes"}, set())

    def test_one_form_of_address(self) -> None:
        """Each language has one for residents, and one for programmes, whose letters share some of the sentences."""
        for language, other in OTHER_ADDRESS.items():
            said = {key: re.sub(r"\{[^}]*\}", "", text) for key, text in named(language).texts.items() if key != "check.button"}
            self.assertEqual({key: text for key, text in said.items() if re.search(other, text)}, {}, language)
            shared = {key: text for key, text in said.items() if key.startswith("programme.") or key in ("letter.docket-name", "letter.sealed", "letter.check")}
            self.assertEqual({key: text for key, text in shared.items() if re.search(OF_ONE.get(language, "(?!)"), text)}, {}, language)

    def test_no_line_begins_with_a_sign(self) -> None:
        """A blank before a colon, a semicolon or a sign of per cent breaks no line."""
        for language in languages():
            self.assertEqual([key for key, text in named(language).texts.items() if key != "ordinals" and re.search(" [:;%!?]", text)], [], language)

    def test_letters_without_a_plain_form(self) -> None:
        """Each sorts as the letters that it is written with where it is missing."""
        for letters, plain in zip("ß æ œ ø ł đ ð þ ı Ø Æ Þ".split(), "ss ae oe o l d d th i o ae th".split()):
            self.assertEqual(named("en").alphabetical(letters), (plain, letters))

    def test_a_file_at_fault(self) -> None:
        """Each kind of mistake at its line, and all that is missing by name."""
        text = text_of("de")
        lines = text.splitlines()

        def at(key: str) -> int:
            return next(number for number, line in enumerate(lines, 1) if line.startswith(f"{key} ="))

        for key, now, cause in (
            ("letter.list", "letter.lists = Ihre Liste", "there is no phrase letter.lists"),
            ("letter.list", "called = Deutsch", "called stands twice"),
            ("letter.list", "Ihre Liste", "Ihre Liste is no phrase, which is written as name = text"),
            ("letter.list", "letter.list =", "letter.list has no text"),
            ("letter.row", "letter.row = {programme}", "letter.row has the values {programme}, {said}, and no other brace"),
            ("letter.row", "letter.row = {programme} {said} {who}", "letter.row has the values {programme}, {said}, and no other brace"),
            ("letter.row", "letter.row = {programme} {said} }", "letter.row has the values {programme}, {said}, and no other brace"),
            ("letter.list", "letter.list = {programme}", "letter.list has no value, and no other brace"),
            ("letters.told", "letters.told = {count} {count:Brief}", "letters.told has another number of forms than 2"),
            ("letters.told", "letters.told = {count} {count:a|b|c}", "letters.told has another number of forms than 2"),
            ("plurals", "plurals = two", "plurals doesn't say what the English file says of it"),
            ("thousands", "thousands = .", "thousands doesn't say what the English file says of it"),
            ("months", "months = Januar, Februar", "months doesn't say what the English file says of it"),
            ("ordinals", "ordinals = *1 {number}.", "ordinals doesn't say what the English file says of it"),
            ("ordinals", "ordinals = x {number}.; * {number}.", "ordinals doesn't say what the English file says of it"),
            ("ordinals", "ordinals = *", "ordinals doesn't say what the English file says of it"),
            ("sorted-after", "sorted-after = ch c", "sorted-after doesn't say what the English file says of it"),
        ):
            spoiled = [now if number == at(key) else line for number, line in enumerate(lines, 1)]
            with self.assertRaises(FaultsError) as told:
                read_phrases("\n".join(spoiled), "de.txt")
            self.assertIn(f"de.txt, line {at(key)}: {cause}", said_by(told.exception).split("\n"))
        for key in english().texts:
            with self.assertRaises(FaultsError) as told:
                read_phrases("\n".join(line for line in lines if not line.startswith(f"{key} =")), "de.txt")
            self.assertIn(f"de.txt: 1 phrase is missing: {key}", said_by(told.exception).split("\n"))


class Handed(OfficeTest):
    def made(self, *words: str, out: str = "out") -> Path:
        return self.run_tables(PROGRAMMES, RESIDENTS, out, "--date", "2026-03-01", *words)

    def test_in_german_and_french(self) -> None:
        out = self.made("--language", "de")
        self.assertEqual((out / "letters" / "omar-haddad.txt").read_text(encoding="utf-8"), LETTER)
        self.assertEqual(rows(out / "unfilled.csv"), [["Programm", "Plätze insgesamt", "Besetzt", "Frei"], ["West Infirmary", "3", "0", "3"]])
        self.assertEqual(rows(out / "rosters" / "north-clinic.csv"), [["Rang auf Ihrer Liste", "Person"], ["2", "Kim Lee"], ["4", "Jürgen Groß"]])
        page = Tree((out / "page.html").read_text(encoding="utf-8")).root
        self.assertEqual([(html_part.attributes["lang"], html_part.all("title")[0].text()) for html_part in page.all("html")], [("de", "Die Zuteilung, 2026-03-01")])
        self.assertEqual([heading.text() for heading in page.all("h2")], [
            "Freie Plätze", "Auf einen Blick", "Wer welche Wahl bekommen hat", "Personen ohne Platz", "Zurückgezogen", "Personen mit Platz", "Programme",
            "Woraus diese Seite gemacht ist"])
        self.assertEqual([caption.text() for caption in page.all("caption")], [
            "3 von 7 Plätzen, bei 1 Programm, nach dem Alphabet",
            "Von 7 Personen; die Wahl ist der Rang des Programms auf der Liste der Person, wie sie geschrieben wurde",
            "4 Personen, nach dem Alphabet",
            "4 Programme, nach dem Alphabet; der letzte vergebene Rang ist der auf der Liste des Programms, wie sie geschrieben wurde; ein "
            "Programm mit freien Plätzen ist offen", "Jede Datei und ihr SHA-256, den auch sha256sum ausgibt"])
        # What programs read stays as it is.
        self.assertEqual([row[3] for row in rows(out / "matches.csv")[1:]], ["matched"] * 4 + ["lost out", "ranked back by nobody", "ranked nobody"])
        self.assertEqual(office("letters", out, "--language", "fr", "--out", self.folder / "fr").status, 0)
        self.assertEqual((self.folder / "fr" / "ana-silva.txt").read_text(encoding="utf-8"), FRENCH)
        again = office("withdraw", out, "Ana Silva", "--out", self.folder / "again")
        self.assertEqual((again.status, rows(self.folder / "again" / "changes.csv")), (0, [
            ["Art", "Name", "ID", "Änderung", "Vorher", "Jetzt"],
            ["Person", "Omar Haddad", "", "jetzt mit Platz", "ohne Platz (kein Platz mehr frei)", "South Hospital (2. von 2)"],
            ["Person", "Ana Silva", "", "zurückgezogen", "South Hospital (1. von 2)", "zurückgezogen"]]))
        for folder in (out, self.folder / "again"):
            self.assertEqual(office("verify", folder).status, 0)

    def test_what_was_sealed(self) -> None:
        """A match is in the language in which it was sealed, and its public part too."""
        self.assertEqual(office("seal", *self.tables(), "--out", self.folder / "sealed", "--language", "pl").status, 0)
        self.assertEqual(office("run", self.folder / "sealed", "--out", self.folder / "out").status, 0)
        self.assertEqual(rows(self.folder / "out" / "public" / "figures.csv")[:4], [
            ["Wskaźnik", "Liczba"], ["osoby biorące udział", "7"], ["z miejscem", "4 (57%)"], ["z pierwszym wyborem", "4 (57%)"]])
        for folder in ("sealed", "out"):
            page = Tree((self.folder / folder / "public" / "check.html").read_text(encoding="utf-8")).root
            self.assertEqual([(html_part.attributes["lang"], html_part.all("title")[0].text()) for html_part in page.all("html")],
                             [("pl", "Sprawdzenie pokwitowania: Przydział")])
            self.assertEqual(office("verify", self.folder / folder).status, 0)

    def test_phrases_of_ones_own(self) -> None:
        """A file of the office's own, by the command line and by the settings; the folder keeps it, and verify goes by it."""
        own = self.write("bairisch.txt", text_of("de").replace("language = de", "language = bar").replace("letter.list =", "letter.list = Schau:"))
        out = self.made("--language", own)
        self.assertIn("Schau:", (out / "letters" / "omar-haddad.txt").read_text(encoding="utf-8"))
        Path(own).unlink()
        self.assertEqual(office("verify", out).status, 0)
        manifest = json.loads((out / "manifest.json").read_text(encoding="utf-8"))
        manifest["language"]["own"] = manifest["language"]["own"].replace("Schau:", "Oida:")
        (out / "manifest.json").write_text(json.dumps(manifest), encoding="utf-8")
        self.assertEqual(office("verify", out).status, 4)
        bad = self.write("bad.txt", "language = de\n")
        said = office("run", *self.tables(), "--language", bad, "--out", self.folder / "bad")
        missing = len(english().texts) - 1
        self.assertEqual((said.status, said.out, said.err.splitlines()[-1]), (3, "", f"office: {bad}: {missing} phrases are missing: called, plurals, thousands, "
                                                                             f"percent, ordinals, months and {missing - 6} more"))
        said = office("run", *self.tables(), "--language", "xx", "--out", self.folder / "bad")
        self.assertEqual((said.status, said.err), (2, "office: xx is no language that comes with the command (de, en, es, fr, pl), and no file of phrases\n"))
        self.assertFalse((self.folder / "bad").exists())

    def test_a_language_for_each(self) -> None:
        """A column says the language of each letter, by its short word or by its name; the rest is in the folder's."""
        words: Dict[str, str] = {"Ana Silva": "fr", "Kim Lee": "DEUTSCH", "Omar Haddad": "de"}
        table = "\n".join([f"{line},{'Sprache' if not number else words.get(line.split(',')[0], '')}" for number, line in enumerate(RESIDENTS.splitlines())])
        out = self.run_tables(PROGRAMMES, table, "out", "--date", "2026-03-01", "--language-column", "Sprache")
        self.assertEqual((out / "letters" / "omar-haddad.txt").read_text(encoding="utf-8"), LETTER)
        self.assertEqual((out / "letters" / "ana-silva.txt").read_text(encoding="utf-8"), FRENCH)
        self.assertIn("\nYou are matched with North Clinic,\n", (out / "letters" / "jurgen-gross.txt").read_text(encoding="utf-8"))
        page = Tree((out / "letters.html").read_text(encoding="utf-8")).root
        self.assertEqual({article.attributes["id"]: article.attributes.get("lang") for article in page.all("article")}, {
            "ana-silva": "fr", "kim-lee": "de", "omar-haddad": "de", "fatima-kovacs": None, "jurgen-gross": None, "rosa-rossi": None, "zoe-bronte": None})
        self.assertEqual(office("verify", out).status, 0)
        said = office("run", *self.tables(PROGRAMMES, table.replace("DEUTSCH", "Deutch")), "--language-column", "Sprache", "--out", self.folder / "bad")
        self.assertEqual((said.status, said.err), (3, "office: residents: Kim Lee has the language Deutch, and the known ones are de, deutsch, en, english, es, "
                                                   "español, fr, français, pl, polski; nothing was written\n"))
        self.assertFalse((self.folder / "bad").exists())
