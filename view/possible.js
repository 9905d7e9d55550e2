'use strict';

// Whether what a test asks for can be: asked of the proved code in a worker, when the page has shown the test and rests.

const POSSIBLE_CASES = 3000; // that may be told apart: so many take well under a second
const ASK_AFTER = 250; // milliseconds without another test

/** What is known of a test: whether what it asks for can be, or null; the test of which the reader was told that it can be (`told`), or that it can't
 * (`refuted`), and the run that why found last (`way`). */
const possible = { test: null, can: null, timer: null, task: null, told: null, refuted: null, way: null };

/** Notes what `why` answered, with the run that it found. */
function noteAnswer(test, { answer, choices, values, asked: sought }) {
  Object.assign(possible, { test, can: answer === undefined ? null : answer === 'allowed' });
  if (values) possible.way = { test, choices, values, holds: sought?.truth };
}

/** Whether it stands in a list before an answer, which it must not give away. */
const isBeforeAnswer = () => isOfEntry() && taught.list.slice(playlist.at + 1).some(entry => hasShown(entry, 'why') || hasShown(entry, 'outcomes'));

/** Whether an answer said that what the test that is driven asks for can't be; an exercise that isn't answered keeps it to itself. */
const isRefuted = () => possible.refuted === drive.test && !isUnanswered() && !isBeforeAnswer();

/** Whether the reader knows that it can be: the page opens with such a task. Of any other test its words don't tell it. */
const isKnownToBe = () => (isFirstDriven() || possible.told === drive.test) && !isBeforeAnswer();
const isFirstDriven = () => drive.test === partsOf(EXAMPLES[FIRST_TEXT]).test;

/** Asks soon about the test that is driven, where nothing is known of it yet. */
function askPossibleSoon() {
  if (possible.test === drive.test || !query('#commands [value=why]')) return;
  possible.task?.stop();
  Object.assign(possible, { test: drive.test, can: isFirstDriven() || null, task: null }); // as a row of the tests asks
  clearTimeout(possible.timer);
  if (!isFirstDriven()) possible.timer = setTimeout(askPossible, ASK_AFTER);
}

async function askPossible() {
  const { test } = possible, task = possible.task = beginTask(bench.bytes, [{ command: 'why', json: true, cases: POSSIBLE_CASES }], test);
  try {
    const [{ status, text }] = await task.answers;
    if (possible.task !== task) return;
    noteAnswer(test, status === GOOD ? JSON.parse(text) : {});
  } catch {
    possible.can = null;
  }
}
