"""The summary of an archive that was verified, as a page."""

from pathlib import Path

from waplay_tools.archive.adding import Program
from waplay_tools.archive.verifying import Result
from waplay_tools.reporting import page
from waplay_tools.reporting.judging import Finding
from waplay_tools.reporting.markup import Html, filled, isolated
from waplay_tools.reporting.tables import MOST_ROWS, folded, head, more_rows, plain, table
from waplay_tools.reporting.text import counted, grouped

PAGE = "verified.html"

_ROW = '<tr><th scope="row"><code>{bag}</code></th><td>{wrong}</td></tr>'

_SECTION = """<section aria-labelledby="{key}"><h2 id="{key}">{title}</h2>
{body}
</section>"""


def _wrong_html(results: list[Result]) -> Html:
    """The table of what is wrong."""
    if not results:
        return Html("<p>No bag was changed, and each script gives the bytes that are kept.</p>")
    rows = [
        filled(_ROW, bag=it.bag, wrong=wrong) for it in results for wrong in it.wrong
    ]
    shown = table("changes", "What is wrong", head(("Bag", "What is wrong")), rows[:MOST_ROWS])
    return Html(shown + more_rows(len(rows)))


def write(archive: Path, results: list[Result], listed: list[str], program: Program) -> None:
    """Writes the page beside the bags. `listed` is what is wrong with their list."""
    wrong = sorted((it for it in results if it.wrong), key=lambda it: it.bag)
    contexts = sum(it.contexts for it in results)
    found = [Finding("bad", f"{it}.") for it in listed]
    if wrong:
        found.append(Finding("bad", f"{counted(len(wrong), 'bag is', 'bags are')} not as kept."))
    good = len(results) - len(wrong)
    found.append(Finding("good", f"{counted(good, 'bag is', 'bags are')} as kept."))
    facts: page.Facts = [
        ("Archive", isolated(archive.absolute().name)),
        ("Bags", grouped(len(results))),
        ("Scripts that were replayed", grouped(contexts)),
        ("Digest of waplay", filled("<code>{it}</code>", it=program.digest)),
    ]
    lines = (
        f"{'wrong' if it.wrong else 'as kept':<8} {it.seconds:8.3f} s  {it.bag}"
        for it in sorted(results, key=lambda it: it.bag)
    )
    every = folded(f"All {grouped(len(results))} bags", plain("All bags", lines), is_open=False)
    body = Html(
        filled(_SECTION, key="wrong", title="What is wrong", body=_wrong_html(wrong))
        + filled(_SECTION, key="all", title="All bags", body=every)
    )
    top = Html(page.findings_html(found) + page.facts_html(facts))
    title = f"Archive {archive.absolute().name}"
    (archive / PAGE).write_text(page.framed(title, top, body), encoding="utf-8")
