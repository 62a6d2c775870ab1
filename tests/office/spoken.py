"""Tables in seven languages, as an office there writes them: what each column is headed, in the forms that people use.

The words are written down here by hand; the program's own list is another one, with more of them.
"""
from typing import Dict, List, NamedTuple, Tuple


class Spoken(NamedTuple):
    """The headings of a language: the programme's, its places, the member's in one column or in two (given, family), a rank by its
    number, of a long table, the ID and who withdrew; and what a row of totals begins with."""

    language: str
    programme: str
    places: str
    resident: str
    parts: Tuple[str, str]
    rank: str
    ranks: str
    id: str
    withdrawn: str
    yes: str
    total: str
    title: str


LANGUAGES: Dict[str, Spoken] = {spoken.language: spoken for spoken in (
    Spoken("English", "Hospital", "Places", "Applicant", ("First name", "Last name"), "{}. choice", "Rank", "ID", "Withdrawn", "yes", "Total",
           "Applicants of 2026"),
    Spoken("German", "Klinik", "Plätze", "Bewerber/in", ("Vorname", "Nachname"), "{}. Wahl", "Rang", "Kennung", "Zurückgezogen", "ja", "Summe",
           "Bewerbungen 2026"),
    Spoken("French", "Hôpital", "Nombre de places", "Candidat(e)", ("Prénom", "Nom"), "Vœu {}", "Rang", "Identifiant", "Désisté(e)", "oui",
           "Total général", "Candidatures 2026"),
    Spoken("Spanish", "Hospital", "Plazas", "Candidato/a", ("Nombre", "Apellidos"), "{}.ª opción", "Orden", "Código", "Renuncia", "sí", "Suma",
           "Solicitudes de 2026"),
    Spoken("Italian", "Ospedale", "Posti", "Candidato", ("Nome", "Cognome"), "Scelta {}", "Ordine", "Codice", "Ritirato", "sì", "Totale",
           "Domande del 2026"),
    Spoken("Polish", "Szpital", "Liczba miejsc", "Kandydat", ("Imię", "Nazwisko"), "Wybór {}", "Kolejność", "Identyfikator", "Wycofany", "tak",
           "Ogółem", "Wnioski 2026"),
    Spoken("Turkish", "Hastane", "Kontenjan", "Aday", ("Ad", "Soyad"), "{}. Tercih", "Sıra", "Kimlik no", "Çekildi", "evet", "Toplam",
           "Başvurular 2026"),
)}


def headed(spoken: Spoken, programmes: List[List[str]], residents: List[List[str]]) -> Tuple[List[List[str]], List[List[str]]]:
    """These tables, headed in English by Programme, Places, Applicant, ID, Rank and Rank 1 and on, with the headings of a language."""
    words = {"Programme": spoken.programme, "Places": spoken.places, "Applicant": spoken.resident, "ID": spoken.id, "Rank": spoken.ranks}

    def said(heading: str) -> str:
        name, _, number = heading.partition(" ")
        return spoken.rank.format(number) if name == "Rank" and number else words[heading]

    return ([list(map(said, programmes[0])), *programmes[1:]], [list(map(said, residents[0])), *residents[1:]])
