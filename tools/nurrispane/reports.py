"""The report of an acceptance: one page of HTML that prints, the same as JSON, and JUnit XML for a laboratory's own machinery."""

import collections
import hashlib
import html
import json
import pathlib
import xml.etree.ElementTree as xml

from nurrispane import durations, records, wirefindings, wirepictures
from nurrispane.files import plain, read_text

HERE = pathlib.Path(__file__).resolve().parent
PAGE = HERE / "report.html"
RIGHT, WRONG, UNSEEN = "seen right", "wrong", "not seen by this bench"

# A sequence that was played, or was to be: its judgement, or the trouble with it.
Played = collections.namedtuple("Played", "name shows length record judgement trouble")


def hashes(record):
    """The sha256 of each file of a record."""
    names = (records.CAPTURE, records.COMMANDS, records.ABOUT)
    return {name: hashlib.sha256((record / name).read_bytes()).hexdigest() for name in names if (record / name).exists()}


def verdict_of(played):
    """The verdict in words, and what it is: right, wrong or none."""
    found = sum(len(one.judgement.findings) for one in played if one.judgement)
    troubles = [one for one in played if one.trouble or one.judgement and (one.judgement.void or one.judgement.unfinished)]
    if found:
        return "wrong", f"The card is wrong: {found} finding{'s' * (found > 1)}"
    if troubles or not played:
        return "none", f"No verdict: {len(troubles)} of {len(played)} sequences could not be judged to the end"
    return "right", f"Nothing is wrong in {len(played)} sequence{'s' * (len(played) > 1)}, as far as this bench sees"


def rules_of(played):
    """Each rule with what was seen of it and in which sequences."""
    wrong, seen = collections.defaultdict(list), collections.defaultdict(list)
    for one in played:
        if one.judgement is None or one.judgement.void:
            continue
        for finding in one.judgement.findings:
            wrong[finding.rule].append(one.name)
        for rule in {rule for judge in one.judgement.courses for rule in judge.exercised()}:
            seen[rule].append(one.name)
    for rule, said in wirefindings.RULES.items():
        state = WRONG if wrong[rule] else RIGHT if seen[rule] else UNSEEN
        yield {"rule": rule, "of": wirefindings.PARTS[rule], "says": said, "state": state, "sequences": sorted(set(wrong[rule] or seen[rule]))}


def troubles_of(one):
    judgement = one.judgement
    return [one.trouble] if one.trouble else [] if judgement is None else [*judgement.void, *judgement.unfinished]


def data_of(played, about):
    """All that the report says, as plain data."""
    kind, said = verdict_of(played)
    return {
        "verdict": kind, "says": said, "about": about, "rules": list(rules_of(played)),
        "sequences": [{
            "name": one.name, "shows": one.shows, "seconds": one.length / 1000, "record": str(one.record.name) if one.record else None,
            "sha256": hashes(one.record) if one.record and one.record.exists() else {}, "troubles": troubles_of(one),
            "notes": one.judgement.notes if one.judgement else [],
            "findings": [finding._asdict() for finding in one.judgement.findings] if one.judgement else [],
        } for one in played],
        "unseen": list(wirefindings.UNSEEN),
    }


def in_json(data):
    return json.dumps(data, indent=1) + "\n"


# ---- JUnit


def in_junit(data):
    """A test case for each sequence and each rule: findings fail, trouble is an error, what is not seen is skipped."""
    suite = xml.Element("testsuite", name="nurrispane accept")
    for one in data["sequences"]:
        case = xml.SubElement(suite, "testcase", classname="sequence", name=one["name"], time=f"{one['seconds']:.1f}")
        for finding in one["findings"]:
            xml.SubElement(case, "failure", type=finding["rule"], message=plain(finding["text"])).text = plain("\n".join(finding["reasons"]))
        for trouble in one["troubles"]:
            xml.SubElement(case, "error", type="trouble", message=plain(trouble))
    for one in data["rules"]:
        case = xml.SubElement(suite, "testcase", classname="rule", name=one["rule"], time="0")
        if one["state"] == WRONG:
            xml.SubElement(case, "failure", type=one["rule"], message=one["says"]).text = ", ".join(one["sequences"])
        elif one["state"] == UNSEEN:
            xml.SubElement(case, "skipped", message=UNSEEN)
    suite.set("tests", str(len(suite)))
    for name, tag in (("failures", "failure"), ("errors", "error"), ("skipped", "skipped")):
        suite.set(name, str(sum(case.find(tag) is not None for case in suite)))
    xml.indent(suite)
    return '<?xml version="1.0" encoding="UTF-8"?>\n' + xml.tostring(suite, encoding="unicode") + "\n"


# ---- HTML


def cell(text):
    return f"<td>{html.escape(str(text))}</td>"


def row(cells, kind=""):
    return f'<tr class="{kind}">{"".join(cells)}</tr>'


def rule_rows(data):
    kinds = {RIGHT: "right", WRONG: "wrong", UNSEEN: "unseen"}
    for one in data["rules"]:
        state = f'<td class="state">{one["state"]}</td>'
        named = "all" if len(one["sequences"]) == len(data["sequences"]) > 1 else ", ".join(one["sequences"])
        yield row([cell(one["of"]), cell(one["says"]), state, cell(named)], kinds[one["state"]])


def sequence_rows(data):
    for one in data["sequences"]:
        found = len(one["findings"])
        said = "; ".join(one["troubles"]) or "right"
        said = f"{found} finding{'s' * (found > 1)}" + ("; " + said if one["troubles"] else "") if found else said
        kind = "wrong" if found else "unseen" if one["troubles"] else "right"
        digest = one["sha256"].get(records.CAPTURE, "")
        yield row([cell(one["name"]), cell(one["shows"]), cell(durations.in_words(1000 * one["seconds"])),
                   f'<td class="state">{html.escape(said)}</td>', f'<td class="hash">{digest}</td>'], kind)


def finding_parts(played):
    """Each finding with its picture."""
    number = 0
    for one in played:
        for finding in one.judgement.findings if one.judgement else []:
            number += 1
            often = f" ({finding.count} times)" if finding.count > 1 else ""
            reasons = "".join(f"<li>{html.escape(reason)}</li>" for reason in finding.reasons)
            picture = wirepictures.svg(judge_of(one.judgement, finding), finding) if one.judgement.courses else ""
            yield (f'<section class="finding"><h3>{number}. {html.escape(wirefindings.RULES[finding.rule])}</h3>'
                   f"<p>Sequence {html.escape(one.name)}, {html.escape(finding.text)}{often}</p><ul>{reasons}</ul>{picture}</section>")


def judge_of(judgement, finding):
    """The part of the record that a finding is of."""
    return next((judge for judge in judgement.courses if finding in judge.found), judgement.courses[-1])


def in_html(data, played):
    """One page that needs nothing outside it."""
    about = "".join(row([f"<th>{html.escape(name)}</th>", cell(value)]) for name, value in data["about"].items())
    notes = [f"{one['name']}: {note}" for one in data["sequences"] for note in [*one["troubles"], *one["notes"]]]
    parts = {
        "VERDICT": data["verdict"], "SAYS": html.escape(data["says"]), "RULES": "".join(rule_rows(data)),
        "SEQUENCES": "".join(sequence_rows(data)), "FINDINGS": "".join(finding_parts(played)) or "<p>None.</p>",
        "NOTES": "".join(f"<li>{html.escape(note)}</li>" for note in notes) or "<li>Nothing.</li>",
        "UNSEEN": "".join(f"<li>{html.escape(what)}</li>" for what in data["unseen"]), "ABOUT": about,
    }
    page = read_text(PAGE)
    for name, text in parts.items():
        page = page.replace(f"@{name}@", text)
    return page
