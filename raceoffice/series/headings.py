"""The headings of lists, as scoring programs and clubs write them in several languages."""
from __future__ import annotations

import re
import unicodedata
from collections.abc import Mapping, Sequence

# By column, without spaces, signs and accents: English, German, French, Dutch, Spanish, Italian. The
# first that a list has is read.
ENTRIES: dict[str, tuple[str, ...]] = {
    "sail": ("sail", "sailno", "sailnumber", "sailnr", "sailnum",
             "segelnummer", "segelnr", "segel",
             "voile", "numerodevoile", "numerovoile", "nodevoile", "novoile", "ndevoile", "nvoile",
             "zeilnummer", "zeilnr",
             "vela", "numerodevela", "numerovela", "nodevela", "novela", "ndevela", "nvela",
             "numerovelico", "numvelico", "nrvelico", "nvelico", "numerodivela"),
    "helm": ("helm", "helmname", "helmsman", "skipper", "skippername",
             "steuermann", "steuerfrau", "steuermannfrau", "steuermannsteuerfrau", "steuerperson",
             "barreur", "barreuse", "nomdubarreur", "skippeur",
             "stuurman", "stuurvrouw", "stuurmanvrouw", "naamstuurman", "schipper",
             "patron", "timonel", "nombredelpatron", "nombredeltimonel",
             "timoniere", "nometimoniere", "nomedeltimoniere",
             "name", "nom", "naam", "nombre", "nome"),
    "name": ("boat", "boatname", "yacht", "yachtname",
             "boot", "bootsname", "bootname", "schiff", "schiffsname",
             "bateau", "nomdubateau", "voilier",
             "bootnaam", "naamboot", "schip", "scheepsnaam", "jacht", "jachtnaam",
             "barco", "nombredelbarco", "embarcacion", "nombredelaembarcacion",
             "imbarcazione", "nomeimbarcazione", "nomedellimbarcazione", "barca", "nomebarca", "nomedellabarca"),
    "club": ("club", "clubname", "yachtclub",
             "verein", "segelverein", "segelclub",
             "nomduclub",
             "vereniging", "watersportvereniging", "clubnaam",
             "clubnautico", "nombredelclub",
             "circolo", "circolovelico", "circolonautico", "nomecircolo", "nomedelcircolo", "societa"),
}
# The ratings of each system of times/rules.ini.
RATINGS = {
    # No `Yardstick`: a German Yardstick number isn't a Portsmouth number.
    "py": ("rating", "py", "pyno", "pynumber", "portsmouthnumber", "portsmouthyardstick"),
    "tcf": ("rating", "tcf", "tcc"),
    "tod": ("rating", "tod"),
}
SHEET: dict[str, tuple[str, ...]] = {
    "sail": ENTRIES["sail"],
    "start": ("start", "starttime", "startzeit", "depart", "heurededepart", "starttijd", "salida",
              "horadesalida", "partenza", "oradipartenza"),
    "finish": ("finish", "finishtime", "ziel", "zielzeit", "arrivee", "heuredarrivee", "finishtijd",
               "aankomst", "llegada", "horadellegada", "arrivo", "oradiarrivo"),
    # No `Time`: it may be that of the clock.
    "elapsed": ("elapsed", "elapsedtime", "gesegeltezeit", "tempsreel", "gezeildetijd", "tiemporeal",
                "temporeale", "tempoimpiegato"),
    "laps": ("laps", "lap", "runden", "tours", "ronden", "rondes", "vueltas", "giri"),
    "distance": ("distance", "miles", "distanz", "meilen", "milles", "afstand", "mijlen", "distancia",
                 "millas", "distanza", "miglia"),
    "code": ("code",),
}


# Signs of a heading that are read, and columns: no name and no list has as many.
LONGEST, COLUMNS = 80, 1000


def plain_heading(text: str) -> str:
    """A heading without spaces, signs and accents, in small letters: `N° de voile` is `ndevoile`."""
    letters = unicodedata.normalize("NFKD", text[:LONGEST].replace("º", ""))
    return re.sub("[^a-z0-9]", "", letters.lower())


def column(heads: Sequence[str], names: Sequence[str]) -> int | None:
    """The column that has the first of these names that any has; None if none has one."""
    return columns(heads, {"one": names}).get("one")


def columns(heads: Sequence[str], known: Mapping[str, Sequence[str]]) -> dict[str, int]:
    """The columns of a list by what they hold."""
    found: dict[str, int] = {}
    for at, head in enumerate(heads[:COLUMNS]):
        found.setdefault(plain_heading(head), at)
    chosen = {key: next((name for name in names if name in found), None) for key, names in known.items()}
    return {key: found[name] for key, name in chosen.items() if name is not None}


def rating_columns(heads: Sequence[str], system: str = "") -> dict[int, int]:
    """The columns of ratings by the race from which they hold, of one system or of any: `PY from 5`
    holds from race 5 on, and `PY` from the first."""
    names = RATINGS.get(system) or tuple(name for some in RATINGS.values() for name in some)
    first = column(heads, names)
    found = {} if first is None else {0: first}
    for at, head in enumerate(map(plain_heading, heads[:COLUMNS])):
        later = re.fullmatch("([a-z]+)from([0-9]{1,2})", head)
        if later and later[1] in names:
            found.setdefault(int(later[2]), at)
    return found
