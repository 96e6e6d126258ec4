"""What an import tells: a report as CSV with places, a survey of tolerances, and lines on standard error."""
from __future__ import annotations

import csv
import io
from collections import Counter
from collections.abc import Iterable

from lib.exact import Position
from lib.importing.common import m2, mm
from lib.importing.making import Account, Made
from lib.importing.rows import Finding, Note

HEADER = ['kind', 'numbers', 'x', 'y', 'area_m2', 'width_mm', 'text', 'row', 'key', 'source_m2', 'own_m2',
          'parts_m2', 'shared_m2', 'rest_m2']
# Kinds of findings by how much they ask for: a row that isn't in the plan, ground that isn't one row's, lines,
# marks.
LEFT_OUT = ('area', 'covered', 'no-geometry', 'collapsed')
KINDS = (*LEFT_OUT, 'overlap', 'crossing', 'gap', 'hole', 'part', 'open-gap', 'spike', 'mark')
SURVEYED = ('overlap', 'crossing', 'gap', 'hole', 'part', 'open-gap', 'covered', 'collapsed', 'spike')
NOTES_TOLD = 5


def worst_first(findings: Iterable[Finding]) -> list[Finding]:
    """Rows that are not in the plan as they should be, and then the others by area; of one area by kind and
    numbers."""
    return sorted(findings, key=lambda it: (it.kind not in LEFT_OUT, -abs(it.doubled), KINDS.index(it.kind),
                                            it.numbers))


def csv_text(rows: Iterable[Iterable[object]]) -> bytes:
    """The rows as CSV."""
    out = io.StringIO()
    csv.writer(out, lineterminator='\n').writerows(rows)
    return out.getvalue().encode(errors='replace')


def placed(place: Position | None) -> list[str]:
    """A place in metres, or two empty fields."""
    return [mm(place[0]), mm(place[1])] if place else ['', '']


def numbers_text(finding: Finding) -> str:
    """The numbers of a finding with spaces between them."""
    return ' '.join(map(str, finding.numbers))


# ---- The report

def report_text(made: Made, notes: list[Note]) -> bytes:
    """The report: findings, the worst first, a record for each row, and what was told beside."""
    rows: list[list[object]] = [list(HEADER)]
    rows += [[it.kind, numbers_text(it), *placed(it.place), m2(it.area), f'{it.width:.1f}', it.text, *[''] * 7]
             for it in worst_first(made.findings)]
    rows += [account_row(it) for it in sorted(made.accounts, key=lambda it: -abs(it.rest))]
    rows += [['note', it.row.number if it.row else '', *placed(it.row.place() if it.row else None), '', '', it.text,
              it.row.row if it.row else '', it.row.key if it.row else '', *[''] * 5] for it in notes]
    return csv_text(rows)


def account_row(account: Account) -> list[object]:
    """A row's record, areas in square metres."""
    row = account.row
    return ['row', row.number, *placed(row.place()), '', '', row.label, row.row, row.key,
            *(m2(it) for it in (account.source, account.own, account.parts, account.shared, account.rest))]


# ---- The survey

SURVEY_HEADER = ['tolerance_mm', 'findings', *SURVEYED, 'parcels', 'put_in', 'welded', 'vertex_moved_mm',
                 'side_moved_mm', 'plan']


def survey_row(tolerance: str, made: Made) -> list[object]:
    """What an import comes to at one tolerance."""
    kinds = Counter(it.kind for it in made.findings)
    figures = made.figures
    return [tolerance, len(made.findings), *(kinds[it] for it in SURVEYED), figures.parcels, figures.put_in,
            figures.welded, f'{figures.move:.2f}', f'{figures.bend:.2f}', 'accepted']


# ---- Standard error

def told(made: Made, notes: list[Note]) -> list[str]:
    """What is told of a plan, line by line."""
    it = made.figures
    most = max(abs(account.rest) for account in made.accounts)
    lines = [
        f'{it.rows} rows with {it.parts} parts, {it.holes} holes and {it.vertices} vertices: '
        f'{it.points} points, {it.strings} strings, {it.parcels} parcels',
        f'moved: a vertex by {it.move:.2f} mm at most, a side by {it.bend:.2f} mm; {it.welded} vertices put on '
        f'others near to them, {it.put_in} points put into sides, {it.crossings} crossings',
        f'areas: a row\'s by {m2(most)} m2 at most']
    kinds = Counter(finding.kind for finding in made.findings)
    for kind in sorted(kinds, key=KINDS.index):
        lines.append(told_of_kind([finding for finding in worst_first(made.findings) if finding.kind == kind]))
    lines += [f'note: {note.text}' for note in notes[:NOTES_TOLD]]
    if len(notes) > NOTES_TOLD:
        lines.append(f'note: {len(notes) - NOTES_TOLD} more (--report FILE has all)')
    return lines


def told_of_kind(findings: list[Finding]) -> str:
    """How many findings of a kind there are, and the worst of them."""
    worst = findings[0]
    area = sum(abs(it.area) for it in findings)
    wide = f', {worst.width:.1f} mm wide,' if worst.width and worst.kind != 'part' else ''
    sizes = f', {m2(area)} m2; the largest {m2(abs(worst.area))} m2{wide}' if area else ''
    place = f' at {mm(worst.place[0])} {mm(worst.place[1])}' if worst.place else ''
    return f'{worst.kind}: {len(findings)}{sizes}{place}: {numbers_text(worst)}, {worst.text}'
