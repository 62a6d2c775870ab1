"""Character sets: which are found, which have to be named, and that names come out right in each."""
import unicodedata

from residency.office import spelling
from support import OfficeTest, office

# By its set, names as people have them where it is used; all of them together stand in one table.
NAMES = {
    "cp1250": ("Jiří Dvořák", "Łukasz Wójcik", "Erdős Pál", "Ionuţ Popescu", "Ana Kovačević"),
    "iso8859-2": ("Zdeněk Růžička", "Agnieszka Łoś", "Szűcs Réka"),
    "cp1251": ("Дмитрий Иванов", "Анна Смирнова"),
    "koi8-r": ("Дмитрий Иванов", "Анна Смирнова"),
    "iso8859-5": ("Дмитрий Иванов",),
    "cp1253": ("Γιώργος Παπαδόπουλος",),
    "iso8859-7": ("Γιώργος Παπαδόπουλος",),
    "cp1254": ("Ayşe Yılmaz", "Doğan Öztürk"),
    "cp1255": ("דוד כהן",),
    "cp1256": ("محمد علي",),
    "cp1257": ("Rūta Kazlauskienė", "Jānis Bērziņš"),
    "iso8859-15": ("Žofie Škoda",),
    "mac-roman": ("José Müller", "Inés Peña"),
    "cp437": ("José Müller", "Inés Peña"),
    "cp850": ("José Müller", "Søren Ångström"),
    "cp852": ("Łukasz Dvořák",),
    "shift-jis": ("田中 太郎", "鈴木 花子"),
    "euc-jp": ("田中 太郎",),
    "gb18030": ("王 芳", "李 娜"),
    "big5": ("王 芳", "李 娜"),
    "euc-kr": ("김 민준", "이 서연"),
}
# Names of Western Europe, which Windows-1252 has, each of which has to be taken as it is.
WESTERN = """Zoë O'Connor,José Núñez,Søren Müller,Jørgen Åsgård,Ángel Ibáñez,Conceição Simões,Luís Magalhães,Antônio,Fábio,Inês,
João Brandão,Ana Côrte-Real,Noël,Loïc,Anaïs,Benoît,Anne Lefèvre,Jérôme,Hélène,François,Jean Lebœuf,Nicolò,Schröder,Weiß,Ångström,
Björk,Järvinen,Mäkelä,Peña,Iñaki,Muñoz,Çelik,Gül,Ümit,Mª José,Hôpital Saint-Éloi – Pédiatrie,Universitätsklinik Köln,Clínica San José,
St. Mary’s,O’Connor,D’Ângelo,Beneš,Jürgen Groß,Brontë,Kjær,Thérèse,Éloïse,Agüero,Gonçalves,Estêvão,Bøe,Håkon,Sæther,Strøm,Désirée,
Geneviève,Léonard,Marçal,Desirée “Dée” Ødegård,Zoé-Anaïs""".replace("\n", "").split(",")


class Sets(OfficeTest):
    def table(self, names, encoding: str) -> list:
        rows = ["Applicant,Rank 1", *(f"{name},North" for name in names)]
        return self.tables("Programme,Places,Rank 1\nNorth,3,Kim\n", "\r\n".join([*rows, "Kim,North", ""]).encode(encoding))

    def test_those_that_have_to_be_named(self) -> None:
        """None is taken for Windows-1252; and under its name it gives the names as they are."""
        for encoding, names in NAMES.items():
            tables = self.table(names, encoding)
            said = office("check", *tables)
            self.assertEqual(said.status, 3, encoding)
            self.assertIn("residents: its character set isn't known: in ", said.out)
            self.assertIn("--encoding residents=", said.out)
            out = self.folder / encoding
            named = office("run", *tables, "--encoding", f"residents={encoding}", "--out", out)
            self.assertEqual(named.status, 0, named)
            key = (out / "key.csv").read_text(encoding="utf-8")
            for name in names:
                self.assertIn(f",{unicodedata.normalize('NFC', name)}\n", key)
            self.assertIn(f"note: residents: names in {encoding}, as {', '.join(names[:3])}; if these are wrong".lower(),
                          named.out.replace("_", "-").replace("Windows-", "cp").lower().replace("shift-jis", "shift-jis"))

    def test_those_that_are_found(self) -> None:
        for encoding in ("utf-8", "utf-8-sig", "utf-16", "utf-16-le", "utf-16-be", "utf-32"):
            said = office("check", *self.table(WESTERN + ["王 芳"], encoding))
            self.assertEqual((said.status, said.out.splitlines()[-1]), (0, "no fault"), (encoding, said))
            self.assertNotIn("names in", said.out)
        for encoding in ("cp1252", "latin-1"):
            names = [name for name in WESTERN if encoding == "cp1252" or not set(name) & set("’–œš“”")]
            said = office("check", *self.table(names, encoding))
            self.assertEqual(said.status, 0, said)
            self.assertIn("note: residents: names in Windows-1252, as Zoë O'Connor, José Núñez, Søren Müller; if these are wrong, "
                          "--encoding residents=SET names another", said.out)

    def test_each_name_alone(self) -> None:
        for name in WESTERN:
            self.assertEqual(spelling.odd_words(name), [], name)
        for encoding, names in NAMES.items():
            for name in names:
                garbled = name.encode(encoding).decode("latin-1" if encoding in ("cp437", "cp850", "cp852") else "cp1252", "replace")
                self.assertNotEqual(spelling.odd_words(garbled), [], (encoding, garbled))

    def test_letters_that_no_language_has_together(self) -> None:
        for word in ("Dvoøák", "Kuèera", "Zupanèiè", "Kovaèeviæ", "Vaòek", "Mãdãlina", "Erdõs", "Szûcs", "Wiœniewski", "JosŽ", "Ayþe",
                     "Yýlmaz", "Doðan", "Nu–ez", "Garc’a", "Maºa", "Íõ", "Rùžena", "Ïuriš", "Nikolìc", "Jos‚", "M¸ller", "Krejèí"):
            self.assertTrue(spelling.is_odd(word), word)
        self.assertEqual(spelling.odd_words("Dvoøák Kuèera Zupanèiè Kovaèeviæ"), ["Dvoøák", "Kuèera", "Zupanèiè"])
        for word in ("É.", "Ø", "Å.", "Íñ.", "Zoë"):
            self.assertEqual(spelling.is_odd(word), word == "Íñ.", word)

    def test_a_set_that_is_named_is_believed(self) -> None:
        said = office("check", *self.table(["Dvoøák"], "cp1252"), "--encoding", "windows-1252")
        self.assertEqual(said.status, 0, said)
        self.assertIn("names in Windows-1252, as Dvoøák;", said.out)

    def test_names_of_ascii_need_no_word(self) -> None:
        said = office("check", *self.table(["Ana Abel"], "ascii"))
        self.assertEqual((said.status, len(said.out.splitlines())), (0, 3), said)
