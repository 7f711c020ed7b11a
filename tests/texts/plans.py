"""The lesson plans of examples/plans.json as rows of docs/GUIDE.md. A step without a question takes
the question of its lesson at its move, as on the page."""
import json
import re
from urllib.parse import quote_plus

from catalogue import TOP

EXAMPLES = TOP / "examples"
PAGE = "../built/lockreplay.html"
PLANS = json.loads((EXAMPLES / "plans.json").read_text(encoding="utf-8"))


def remark(lesson, what, move):
    """A question or an answer of a lesson, with its lines joined into one."""
    text = (EXAMPLES / f"{lesson}.schedule").read_text(encoding="latin-1")
    lines = re.findall(rf"^#! {what} {move} (?:hide [a-z ]+ : )?(.+)$", text, re.MULTILINE)
    return " ".join(lines)


def fragment(step):
    """The fragment of a link to a step's place, in the form that the page reads."""
    play = f"&play={quote_plus(step['play'])}" if "play" in step else ""
    show = f"&show={step['show']}" if "show" in step else ""
    compare = "&compare" if step.get("compare") else ""
    return f"#lesson={step['lesson']}&move={step['move']}{play}{compare}&hall{show}"


def said(step):
    """The sentence, the question and the answer of a step."""
    ask, answer = (step.get(what) or remark(step["lesson"], what, step["move"])
                   for what in ("ask", "answer"))
    return " ".join(filter(None, [step.get("say"), ask, answer and f"({answer})"]))


def rows(plan):
    """The head of the table, then (minutes, link, text) of each step and of the homework."""
    yield "Minutes", "Show", "Say and ask (answer)"
    yield "---", "---", "---"
    begins = 0
    for step in plan["steps"]:
        link = f"[{step['place']}]({PAGE}{fragment(step)})"
        yield f"{begins} to {step['to']}", link, said(step)
        begins = step["to"]
    given = plan["homework"]
    sheet = f"[exercise sheet]({PAGE}#lesson={given['lesson']}&move=0&sheet=exercise)"
    yield "homework", sheet, " ".join(filter(None, [
        given.get("ask"), given.get("answer") and f"({given['answer']})"]))
