"""What refusals and plan faults mean, and what helps, in words; docs/TUTORIAL.md has them at more length."""
from __future__ import annotations

from typing import NamedTuple


class Meaning(NamedTuple):
    """What it means, and what helps."""
    means: str
    helps: str


REFUSALS = {
    'range': Meaning('a coordinate is farther than 10,000 km from zero',
                     'look for a digit too many, or for something else taken as millimetres'),
    'unknown': Meaning("what the record names isn't there",
                       'look at the number; an edit before it may have been refused, or have taken it away'),
    'taken': Meaning('the number that the record gives is in use',
                     'give another; a number that this same edit would free is in use too'),
    'retired': Meaning('a merger ended the parcel with that number',
                       'give another number; to have the old parcel back, undo the merger'),
    'outside': Meaning("what lies outside of all parcels can't be merged", 'name two parcels'),
    'no-change': Meaning('the point is there already, or the parcel is called that',
                         'nothing is to be done; or look whether another one was meant'),
    'not-free': Meaning("the point is on a string: it can't be dropped, nor be inside a new line",
                        '`join` it away, or lead the line so that it ends there'),
    'not-degree-two': Meaning('only a point with just two strings can be joined away',
                              'leave it where boundaries meet'),
    'bad-chain': Meaning('too few points, not as many strings as the line has pieces, or a number twice',
                         'count: a divided parcel needs one string fewer than points, an enclosed one as many'),
    'not-in-parcel': Meaning("the line doesn't leave this point into the parcel",
                             'name the parcel in which the line lies; split its boundary at both ends of the line'),
    'chain-joins-rings': Meaning('the line leads from one ring of the boundary to another: nothing would be divided',
                                 'lead the line back to the ring on which it begins'),
    'same-parcel': Meaning("a parcel can't be merged with itself", 'look at the second number'),
    'not-neighbours': Meaning('the two have no boundary in common', 'merge what lies between them first'),
    'not-one-chain': Meaning('they meet along several stretches of boundary, with something between',
                             'merge what lies between them first'),
    'already-attached': Meaning('the source is attached to this already', 'nothing is to be done'),
    'not-attached': Meaning("the source isn't attached to this", 'look at both numbers'),
    'full': Meaning('a limit of the map would be exceeded',
                    'detach a source that says nothing new; cut a larger map into districts'),
}
BREAKS = {
    'V3': Meaning('two points would be at one place', 'use the point that is there'),
    'V4': Meaning("two strings would cross, or a point would lie on a string that doesn't end there",
                  '`split` the string at that place first; or look for a wrong coordinate'),
    'V6': Meaning('at some point boundaries would change places, so that parcels would lie over each other',
                  'the point was moved across a boundary: move that one first'),
    'V7': Meaning('a parcel would be inside out, or have two outer boundaries',
                  'list the points of an enclosure counterclockwise; walk a line through the outside with the new '
                  'parcel to the left'),
    'V8': Meaning('a hole would lie outside its parcel, or in another hole',
                  'name the parcel in which the island lies'),
}
SYNTAX = Meaning('the record is none of a script; nothing has changed',
                 'look at the word, at the number of fields, and at each field')
FAULTS = {
    'version': Meaning('the first record begins no plan', 'the first record is `plan,2,,,,,`'),
    'syntax': Meaning("the record isn't one of a plan",
                      'look at the word, at the number of fields, and at each field'),
    'range': Meaning('a coordinate is farther from zero than the version of the plan allows',
                     'look for a digit too many; version 2 has room for 10,000 km either way'),
    'taken': Meaning("a number stands twice among points, strings, parcels or sources; or a parcel's is retired",
                     'give one of them another number, or take it out'),
    'unknown': Meaning("a record names what isn't there",
                       'look for a wrong number, or for a record that is missing'),
    'full': Meaning('a row more than a map may have, or more than 16 sources of one thing',
                    'cut a larger map into districts; leave out sources that say nothing new'),
    'dangling': Meaning('a string ends where no other goes on, or has one point twice, or one parcel on both sides',
                        'look for a string that is missing, and for wrong points and parcels of this one'),
    'corner': Meaning('at this point strings leave in one direction, so that no ring can be followed through it',
                      'look for strings that overlap or stand twice, and for a wrong coordinate'),
    'labels': Meaning('going round with the parcel to the left, after this string comes a side of another parcel',
                      'look for a wrong coordinate, then at the two parcels of this string and of its neighbours'),
    'no-open': Meaning('the input ended before `open`',
                       'the plan was cut off, or the record `open,,,,,,` is missing'),
}
PLAN_BREAKS = {
    'V3': Meaning('two points are at one place', 'leave one of them out, or look for a wrong coordinate'),
    'V4': Meaning("two strings cross, or a point lies on a string that doesn't end there",
                  'look for a wrong coordinate; else give the strings a point where they meet'),
    'V6': Meaning('at some point a string lies between two that are neighbours on one ring',
                  'look for a wrong coordinate'),
    'V7': Meaning('a parcel is inside out, or has no outer boundary or two',
                  'look at the two parcels of its strings'),
    'V8': Meaning('a hole lies outside its parcel, or in another hole',
                  'look for the parcel in which the island lies, and give it to the outer strings of the island'),
}


def meaning_of_refusal(name: str, kind: str) -> Meaning:
    """Of a refusal by its name, and of `breaks` by the rule."""
    unknown = Meaning('', '')
    return BREAKS.get(kind, unknown) if name == 'breaks' else REFUSALS.get(name, unknown)


def meaning_of_fault(name: str, rest: str) -> Meaning:
    """Of a plan's fault by its name, and of `breaks` by the rule."""
    unknown = Meaning('', '')
    return PLAN_BREAKS.get(rest, unknown) if name == 'breaks' else FAULTS.get(name, unknown)
