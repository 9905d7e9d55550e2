'use strict';

// How many choices a run needs at least: the machine itself is driven, each core's instruction and its store at a time, and choices that
// do something are counted.

const LEAST_TRIED = 400; // choices, more than any test of eight cores and few instructions needs

/** The choices that let one core after the other make its program, and drain what it stores at once. */
function straightChoices(programs) {
  return programs.flatMap((program, core) => program.flatMap(() => [`${core}s`, `${core}d`]));
}

/** The least number of choices of a run of a history's test; null where these choices don't end it, as where a program has a loop. */
function leastChoices({ options, programs }, test) {
  const words = straightChoices(programs);
  if (words.length > LEAST_TRIED) return null;
  const { history } = historyOf({ ...options, bus: 'atomic' }, `${test}${DIVIDING_LINE}\n${words.join(' ')}\n`);
  if (!history?.hasEnded(history.steps.length)) return null;
  return history.steps.filter(({ outcome }) => outcome !== 'stalled').length;
}

/** The number that was found last, with what it is of. */
const least = { key: null, count: null };

function leastOf(history) {
  const key = `${history.options.depth} ${drive.test}`;
  if (least.key !== key) Object.assign(least, { key, count: leastChoices(history, drive.test) });
  return least.count;
}

/** How many choices a run needs, in a sentence; empty where that isn't known. */
function leastSentence(history) {
  const count = leastOf(history);
  return count === null ? '' : ` A whole run needs at least ${count} ${count === 1 ? 'choice' : 'choices'}.`;
}
