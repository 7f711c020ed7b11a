"""The page in German: every sentence is translated, none has a hole, pictures have room for the
words, and reports stay as they are."""
import re

import pytest

from reports import LESSONS, MOVES, PLANS, SCHEDULES, TRANSLATIONS, remarks
from tree import cases

GERMAN = "#lesson=mcs-late-link&move=0&lang=de"
# Texts that stay: words of schedules and reports, names of files, and texts without a word.
THE_SAME = {f"page.{name}" for name in [
    "product", "shortThread", "outcomes", "wordBecomes", "spoken.did", "own.fileName",
    "own.template", "quiz.short", "quiz.fileName"]}


def test_every_sentence(page):
    page.open("#lang=de&lesson=mcs-late-link&move=0")
    assert {path.strip(".") for path in page.js("untranslated")} == THE_SAME
    assert page.js("language") == "de"


def test_reports_are_the_same(page):
    assert page.open(GERMAN).js("reports", list(SCHEDULES.values())) == list(LESSONS.values())


def test_each_place_is_filled_in(page):
    page.open(GERMAN)
    for name, report in LESSONS.items():
        if MOVES[name] or report.startswith("refused"):
            for text in page.js("said", name):
                for hole in ["{", "undefined", "NaN", "[object"]:
                    assert hole not in text, name


def test_lesson_plans(page):
    """Every sentence of the lesson plans is translated, with those of the homework."""
    said = page.open(GERMAN).press("n").text("#plan-list")
    for plan in PLANS:
        texts = [plan["aim"], *(part.get(name) for part in [*plan["steps"], plan["homework"]]
                                for name in ("say", "ask"))]
        for text in filter(None, texts):
            assert text not in said and TRANSLATIONS[text] in said, text
    steps = [step for plan in PLANS for step in plan["steps"]]
    assert page.js("texts", "#plans [data-step] b") == [
        f"{TRANSLATIONS[remarks(step['lesson'], 'title')[0]]}, {step['move']}" for step in steps]
    assert page.js("texts", "#plans .minutes")[:2] == ["0 bis 1 min", "1 bis 3 min"]


def test_what_is_said_in_a_lesson(page):
    """A lesson's story, sentences, questions, answers and point are German, and so are the titles
    of the lessons that come next and that it can be compared with."""
    page.open("#lesson=ticket-hand-over&move=5&lang=de").press("a")
    assert page.text("#now .question") == (
        "Frage: Bob hat aufgerufen und addiert. Was davon hat ihn in die Schlange gebracht? "
        "AntwortA Das add: Seine Nummer ist sein Platz. Sein Aufruf hat nichts geändert.")
    assert page.go(1).text("#now .own-say") == (
        "Ann will die Sperre. Ihr Aufruf ändert noch nichts im Speicher.")
    story = " ".join(re.findall(r"^# (.+)$", SCHEDULES["ticket-hand-over"], re.MULTILINE))
    assert page.go(0).text("#now .about") == TRANSLATIONS[story].replace("`", "")
    assert "Eine Nummer ziehen, warten, bis sie gezeigt wird" in page.go(10).text("#now .last")
    after = ["Es gilt die Reihenfolge der Tickets, nicht die der Aufrufe",
             "Tickets beginnen wieder bei 0"]
    assert page.text("#now [data-next]").startswith(f"Weiter: {after[0]}")
    assert page.press("c").js("texts", "#other-list [data-other]")[-2:] == after


@pytest.mark.parametrize("width, height, look", [
    (390, 844, ""), (1280, 720, ""), (1280, 720, "&hall"), (1440, 900, "")])
def test_pictures_fit(page, width, height, look):
    """German words are longer, and still no picture cuts one."""
    page.resize(width, height).open(f"{GERMAN}{look}")
    for name, report in LESSONS.items():
        if not report.startswith("fault"):
            assert not any(page.js("cut", name)), name


def begun_in(page, language):
    """Waits until the page has begun anew, in a language."""
    page.wait(lambda: page.tried(page.js, "hasBegunIn", language), lambda: f"it is not {language}")
    return page


def test_by_the_address_and_back(page):
    """The address keeps the language, and the dialog about the page changes it."""
    page.open("#lesson=mcs-late-link&move=9&lang=de")
    assert page.text("#now .say").startswith("Ihr compare-and-swap: tail ist nicht")
    page.go(10).becomes("#lesson=mcs-late-link&move=10&lang=de", "address")
    page.call("click", "#show-about").call("click", "#about [data-lang=en]")
    begun_in(page, "en").becomes("#lesson=mcs-late-link&move=10&lang=en", "address")
    begun_in(page.call("follow", "#lesson=mcs-late-link&move=10&lang=de"), "de")


@pytest.mark.parametrize("link", ["#lang=de&lesson=none", "#lesson=none&lang=de"])
def test_another_language_of_a_damaged_link(page, link):
    """The language that is chosen at the start replaces that of a link which stays as it is."""
    page.open(link).call("click", "#lessons [data-lang=en]")
    assert begun_in(page, "en").js("addressEnds", "lesson=none&lang=en")


@pytest.mark.parametrize("look", ["", "&theme=dark"])
def test_another_language_of_the_start(page, look):
    """The start comes again in the language that is chosen, until a move was shown."""
    page.open(f"#lang=de{look}").call("click", "#lessons [data-lang=en]")
    assert begun_in(page, "en").js("count", "#lessons[open]") == 1
    page.becomes(f"#lesson=ticket-hand-over&move=0&lang=en{look}", "address").press("Escape").go(1)
    page.press("o").call("click", "#lessons [data-lang=de]")
    assert begun_in(page, "de").js("count", "#lessons[open]") == 0
    page.becomes(f"#lesson=ticket-hand-over&move=1&lang=de{look}", "address")


def test_another_language_of_the_first_lesson(page):
    """A lesson that was chosen at the start stays, though no move was shown."""
    page.open("#lang=en").click("[data-lesson=mcs-late-link]").press("o")
    begun_in(page.call("click", "#lessons [data-lang=de]"), "de")
    page.becomes("#lesson=mcs-late-link&move=0&lang=de", "address")
    assert page.js("count", "#lessons[open]") == 0


@pytest.mark.parametrize("wanted, language", [
    (["de-AT"], "de"), (["fr", "de"], "de"), (["en-GB", "de"], "en"), (["fr"], "en")])
def test_the_language_of_the_browser(page, wanted, language):
    """The page takes the first wanted language that it has, in the variant of any country."""
    page.before("want", wanted).open("#lesson=mcs-late-link&move=9")
    assert page.js("language") == language


@pytest.mark.parametrize("language, name", [("en", "English"), ("de", "Deutsch")])
def test_the_language_is_pressed(page, language, name):
    """The button of the language is pressed, at the start and in the dialog about the page."""
    page.open(f"#lang={language}")
    assert page.js("texts", "#lessons [data-lang][aria-pressed=true]") == [name]
    page.press("Escape").call("click", "#show-about")
    assert page.js("texts", "#about [data-lang][aria-pressed=true]") == [name]
    assert page.js("texts", "#about [lang=de]") == ["Deutsch"], "a voice reads it in its language"


# The German words for the standing of a thread: in lessons at a move, in the room or in the head
# of a record, and below the lanes.
STANDINGS = {
    "fifo-reader-waits-behind-writer&move=2": ("#memory-picture .room-name", "drinnen: liest"),
    "fifo-reader-waits-behind-writer&move=14": ("#memory-picture .room-name", "drinnen"),
    "fifo-writer-enters-at-once&move=3": ("#memory-picture .room-name", "drinnen: schreibt"),
    "mcs-late-link&move=3": ("#memory-picture .record.holds .standing", "hält"),
    "mcs-late-link&move=12": ("#memory-picture .record.queue .standing", "Schlange"),
}
SIGNS = {"call": "in einem Aufruf", "queue": "in der Schlange", "reads": "liest",
         "writes": "schreibt"}
# The German for what a move does, by a move of the late link that does it.
PLAIN = {1: "ein Aufruf beginnt", 2: "der Aufruf geht weiter",
         3: "von hier an hält der Thread die Sperre", 9: "das compare-and-swap scheitert",
         10: "eine vergebliche Abfrage", 15: "der Thread hält die Sperre nicht mehr"}
LEGEND = ["ruft auf", "der Aufruf geht weiter", "wartet: vergebliche Abfrage", "tritt ein",
          "ist draußen", "cas scheitert", "in einem Aufruf", "in der Schlange", "hält",
          "in der Schlange, nicht verknüpft", "das write, das ein Warten beendet hat"]


def test_how_threads_stand(page):
    for link, (selector, text) in STANDINGS.items():
        assert page.open(f"#lesson={link}&lang=de").text(selector) == text, link
    assert page.open("#lesson=fifo-downgrade&move=0&lang=de").js("signs") == SIGNS
    page.lesson("mcs-late-link", 12)
    assert page.text("#memory-says") == "Nach Ann kommt Bob, und nur Bob weiß es."


def test_what_moves_do(page):
    assert page.open(GERMAN).js("texts", "#legend > span") == LEGEND
    assert page.js("plainAt", list(PLAIN)) == list(PLAIN.values())
    page.go(15)
    assert "Ann löscht locked von Bob und hat die Sperre verlassen; Bob ist als Nächstes dran" in (
        page.text("#now"))


# For each term of the German glossary a text with a form of it, and a part of its meaning.
TERMS = {
    "zwei Züge": ("Zug", "eine Zeile eines Ablaufs"),
    "des Aufrufs": ("Aufruf", "mit dem ein Thread eine Operation beginnt"),
    "in Schritten": ("Schritt", "eine atomare Operation eines Threads"),
    "die Wörter": ("Wort", "eine Variable im gemeinsamen Speicher"),
    "sie fragt ab": ("Abfrage", "nachsieht, ob er weitergehen darf"),
    "nach vergeblicher Abfrage": ("vergebliche Abfrage", "dass sein Thread warten muss"),
    "Ann hält sie": ("Halter", "eine Sperre betreten und noch nicht verlassen"),
    "die Schlange": ("Schlange", "die älteste zuerst"),
    "zwei Records": ("Record", "next und locked eines Threads"),
    "noch nicht verknüpft": ("Link", "in das next seines Vorgängers einträgt"),
    "mit dem späten Link": ("später Link", "nachdem der Vorgänger sein release begonnen hat"),
    "zweier Abschnitte": ("Abschnitt", "ein Schritt einer Schreib-Lese-Sperre"),
    "schon angekündigt": ("ankündigen", "setzt das flag und ist der nächste Schreiber"),
    "ihr Linearisierungspunkt": ("Linearisierungspunkt", "für alle Threads wirkt"),
    "vieler Sperren": ("Sperre", "damit sich Threads nicht stören"),
    "zwei Threads": ("Thread", "der neben anderen läuft"),
    "in atomaren": ("atomar", "Kein anderer Thread kommt dazwischen"),
    "ihr add": ("add", "um 1 größer zurückschreibt"),
    "nach den swaps": ("swap", "einen anderen Wert hineinschreibt"),
    "ein compare-and-swap": ("compare-and-swap", "wenn es den Wert hat"),
    "ist nil": ("nil", "kein Record"),
    "der Monitor": ("Monitor", "immer nur einen Thread"),
}


def test_which_term_a_german_word_is(page):
    """A word is marked if it is a term or a form of one, and not if it is a part of another word
    or a word for left."""
    page.open("#lang=de").show(f"#! say 1 {'; '.join(TERMS)}; nach links, Aufzug, behalten.\n"
                               "lock ticket threads 1\n0 acquire\n", 1)
    explained = page.js("meanings", "#now .own-say .term")
    assert [term for term, _ in explained] == [term for term, _ in TERMS.values()]
    for (term, meaning), (_, part) in zip(explained, TERMS.values()):
        assert part in meaning, term


# What is said of the last of these moves of a read-write lock: what a section found, and who holds
# at a refused move.
SAID = {
    "writer": ("0 wlock; 0 section",
               "Thread 0 findet keinen Leser und das flag gelöscht, setzt es und"),
    "poll": ("1 rlock; 1 section; 0 wlock; 0 section", "Thread 0 fragt ab und wartet: readers ist "
             "1, und das flag ist 0; beide müssen 0 sein"),
    "reader": ("0 rlock; 0 section", "Thread 0 findet keinen Schreiber und trägt sich ein"),
    "refused beside a reader": ("0 rlock; 0 section; 1 runlock",
                                "Thread 0 hält die Sperre zum Lesen."),
    "refused beside a writer": ("0 wlock; 0 section; 1 runlock",
                                "Thread 0 hält die Sperre zum Schreiben."),
    "refused beside readers": ("0 rlock; 0 section; 1 rlock; 1 section; 2 runlock",
                               "Thread 0, Thread 1 halten die Sperre zum Lesen."),
}


@cases("moves, said", SAID)
def test_what_is_said_of_a_move(page, moves, said):
    lines = moves.split("; ")
    page.open(GERMAN).show("\n".join(["lock rw-simple threads 3", *lines, ""]), len(lines))
    assert said in page.text("#now")


# Synonyms that German texts must not use. The words for these things are Record, Zähler, drinnen,
# Reihenfolge, Kopfzeile (a queue has a Kopf, its head), Trace, wieder bei 0.
OTHER_WORDS = re.compile(
    r"Eintrag|Zählung|\bdrin\b|[Ii]n (der|dieser|welcher) Folge\b|\bKopf (ist|erlaubt|beginnt)"
    r"|ist eine Spur|laufen um|als nächster|(?<![Dd]as )(?<![Ii]hr )\bflag (ist|war|setzt|gesetzt)")


def test_one_word_for_each_thing(page):
    """The German texts, which are in the page's body, have one word for each thing, and so have
    those of the lessons."""
    said = page.open(GERMAN).text("body").replace("' + '", "")
    said += " ".join(TRANSLATIONS.values())
    assert "flag gesetzt" in said and TRANSLATIONS["The late link"] in said
    assert not OTHER_WORDS.findall(said)


def test_titles_of_what_is_refused(page):
    """The titles of refused lessons are German, except for the name of the fault."""
    said = page.open("#lang=de").click(".refusals summary").text(".refusals")
    for part in ["Busy: ein Aufruf", "WrongStep: ein read, wo", "BadThreads: 65 Threads"]:
        assert part in said


@pytest.mark.parametrize("moves, said", [
    (1, "Der Zug davor lässt sich zeigen."), (2, "Die 2 Züge davor lassen sich zeigen.")])
def test_moves_before_a_fault(page, moves, said):
    page.open(GERMAN)
    page.show("".join(["lock ticket threads 2\n", *["0 acquire\n", "0 add\n"][:moves], "0 go\n"]))
    assert said in page.text("#verdict")


def test_the_card_of_mcs(page):
    said = page.open("#lang=de").text("[data-lock=mcs]")
    assert "Jeder Thread wartet an einem eigenen Wort" in said


def test_comments_on_other_moves(page):
    """The German page also says that a link leaves out comments on other moves."""
    page.open(GERMAN).press("e")
    page.call("write", SCHEDULES["mcs-late-link"].replace("1 swap", "1 read"))
    assert "weder gezeigt noch gespeichert, auch nicht im Link" in page.text("#verdict")
