/* What a search finds in the plan, and texts as they can be compared and shown. */

/** @typedef {{title: string, items: Item[], count: number}} Group  The first items of those that were found. */

const MOST_FOUND = 50;
/** @type {string[] | undefined} */
let foldedLabels;

/**
 * A text in small letters without accents, for comparing.
 * @param {string} text
 * @returns {string}
 */
function folded(text) {
  const plain = /^[\x00-\x7f]*$/.test(text) ? text : text.normalize('NFKD').replace(/\p{M}/gu, '');
  return plain.toLowerCase();
}

/**
 * A text with signs in the place of control characters, which can't be seen, and of those that turn the direction.
 * @param {string} text
 * @returns {string}
 */
function visible(text) {
  return text.replace(/[\0-\x1f]/g, (it) => String.fromCharCode(0x2400 + it.charCodeAt(0)))
    .replace(/\x7f/g, '\u2421').replace(/[\x80-\x9f\u200e\u200f\u2028-\u202e\u2066-\u2069]/g, '\ufffd');
}

/**
 * The rows of a kind that pass a test; the one whose number is the text itself comes first.
 * @param {Plan} plan
 * @param {Kind} kind
 * @param {string} text
 * @param {(place: number, number: number) => boolean} passes
 * @returns {Item[]}
 */
function rowsFound(plan, kind, text, passes) {
  const exact = /^[1-9]\d{0,8}$/.test(text) ? placeOf(plan, kind, Number(text)) : undefined;
  /** @type {Item[]} */
  const items = exact === undefined ? [] : [{ kind, number: Number(text) }];
  numbersOf(plan, kind).forEach((number, place) => {
    if (place !== exact && passes(place, number)) {
      items.push({ kind, number });
    }
  });
  return items;
}

/**
 * What the plan no longer has and whose number or words have the text: what was removed, and parcels that a merger
 * ended before.
 * @param {Plan} plan
 * @param {string} text
 * @returns {Item[]}
 */
function goneFound({ since, retired }, text) {
  const removed = since?.changes.filter(({ word, number, was }) =>
    word === 'removed' && (String(number).startsWith(text) || folded(was).includes(text))) ?? [];
  const before = [...retired].filter((number) => String(number).startsWith(text) && !since?.of.parcel.has(number));
  return [...removed, ...before.map((number) => ({ kind: /** @type {Kind} */ ('parcel'), number }))];
}

/**
 * What a search finds, in groups, none of which is empty.
 * @param {Plan} plan
 * @param {string} query
 * @returns {Group[]}
 */
function searched(plan, query) {
  const text = folded(query.trim());
  if (!text) {
    return [];
  }
  foldedLabels ??= plan.parcels.label.map(folded);
  const labels = foldedLabels;
  const isNumber = /^\d+$/.test(text);
  const begins = (/** @type {number} */ number) => isNumber && String(number).startsWith(text);
  const found = {
    Parcels: rowsFound(plan, 'parcel', text, (place, number) => labels[place].includes(text) || begins(number)),
    Sources: rowsFound(plan, 'source', text, (place) => folded(plan.sources.text[place]).includes(text)),
    Boundaries: isNumber ? rowsFound(plan, 'string', text, (place, number) => begins(number)) : [],
    Points: isNumber ? rowsFound(plan, 'point', text, (place, number) => begins(number)) : [],
    'No longer there': goneFound(plan, text),
  };
  return Object.entries(found).filter(([, items]) => items.length)
    .map(([title, items]) => ({ title, items: items.slice(0, MOST_FOUND), count: items.length }));
}
