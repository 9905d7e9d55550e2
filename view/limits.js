'use strict';

// How much text the page takes: a browser lays out each line of a field.

/** The bytes are the program's own limit, the lines the page's. No test or order has nearly as many. */
const MOST_TEXT = { bytes: 1048576, lines: 5000 };

/** How many lines a text has; where it has more than the limit, one more than that. */
function countLines(text) {
  let count = 1;
  for (let at = text.indexOf('\n'); at >= 0 && count <= MOST_TEXT.lines; at = text.indexOf('\n', at + 1)) count++;
  return count;
}

/** Why a text is too long for the page, in a sentence; null where it isn't. */
function whyTooLong(text) {
  if (text.length > MOST_TEXT.bytes) return `This text is too long: an input has at most ${MOST_TEXT.bytes.toLocaleString('en')} bytes.`;
  return countLines(text) > MOST_TEXT.lines ? `This text is too long for the page: it has more than ${MOST_TEXT.lines.toLocaleString('en')} lines. Nothing was changed.` : null;
}

/** Refuses what would make the text of a field too long, before it is there. */
function refuseTooLong(event) {
  const field = event.target, added = event.data ?? event.dataTransfer?.getData('text') ?? '';
  if (!field.matches('textarea') || added.length < 2) return;
  const why = whyTooLong(added) ?? whyTooLong(field.value.slice(0, field.selectionStart) + added + field.value.slice(field.selectionEnd));
  if (why === null) return;
  event.preventDefault();
  saySentence(field, why);
}

/** Says a sentence where it is in sight, whatever is folded. */
function sayInSight(sentence) {
  putMessage(sentence);
  bringNear(byId('message'));
}

/** Says a sentence of a field: beside the test, or where lines of runs are told of. */
function saySentence(field, sentence) {
  if (field.id === 'line' || byId('bench').hidden || !byId('test-part').open) sayInSight(sentence);
  else showSaid({ hint: '' }, sentence);
}
