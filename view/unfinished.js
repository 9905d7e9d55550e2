'use strict';

// Answers that didn't come to their end, in words, with what one can do.

const MORE = 10; // times the limit, by one press

/** What `why` has told of the condition of this test; null where it told nothing. */
function whySaid() {
  const test = inputOf('why'), isForall = quantifierOf(test) === 'forall', can = whyCan(test);
  if (can === null) return null;
  return can ? `found a run that ${isForall ? 'breaks the claim' : 'ends so'}` : `shown that ${isForall ? 'each' : 'no'} run ends so`;
}

/** Whether `why`, in sight or behind, found that what a test asks for can be; null where it told nothing. */
const whyCan = test => (possible.refuted === test ? false : possible.test === test && !isUnanswered() ? possible.can : null);

/** What `why` told beside a search; a run of it may need deeper buffers than the search has. */
function knownByWhy() {
  const known = whyCan(inputOf('why'));
  return currentCommand() === 'why' || (known && valueOf('searched') !== SET_AT_FIRST.searched) ? null : known;
}

/** Whether what was met alone answers the condition; null without one. */
function isDecided(states) {
  const quantifier = quantifierOf(inputOf('why'));
  return quantifier && states.some(({ holds }) => holds === (quantifier !== 'forall'));
}

/** The run that `why` found, as a row of the table, where no other row answers the condition. */
function wayOfWhy(states) {
  const { way } = possible, names = Object.keys(states[0]?.values ?? {}), isKnown = knownByWhy() && !isDecided(states) && way?.test === inputOf('why');
  return isKnown && names.length > 0 && names.every(name => name in way.values) ? [{ ...way, values: Object.fromEntries(names.map(name => [name, way.values[name]])) }] : [];
}

/** What is said of a search that didn't end; above it the answer to the condition, where what was met, or `why`, decides it. */
function openVerdict(states, sentence) {
  const test = inputOf('why'), quantifier = quantifierOf(test), isMet = isDecided(states), can = isMet || knownByWhy();
  if (quantifier === null || can === null) return [html('p', { role: 'status', class: 'is-open' }, sentence)];
  const wanted = wantedWords(readTest(test).proposition), found = wayOfWhy(states).length > 0 ? 'found the run of the first row' : whySaid();
  return [html('p', { role: 'status' }, verdictOf(asClaimed(can, quantifier, wanted))), ...termsPart(test), html('p', {}, isMet ? sentence : `“Why” has ${found}, not this search. ${sentence}`)];
}

/** What one can do where a limit was too low, or work was stopped (`met` final states are known then). */
function waysOn(command, { isStopped = false, met = 0, known = met, among } = {}) {
  const found = whySaid(), name = LIMIT_OF[command], most = Number(settingOf(name).max), next = Math.min(most, MORE * valueOf(name));
  const again = html('li', {}, html('button', { 'data-ask': command }, 'Begin again'), ' It starts from nothing, with the same limit.');
  const allow = html('button', { 'data-more': `${name} ${next}` }, `Allow ${next.toLocaleString('en')} ${name}`);
  const higher = next > valueOf(name) ? [html('li', {}, allow, ` It can take ${MORE} times as long, and as much memory${command === 'outcomes' ? ': 1,000,000 states of a large test take up to half a minute' : ''}.`)] : [];
  const shown = html('li', {}, html('button', { 'data-met': '' }, 'Show what was met'), ` ${known === 1 ? 'One outcome' : `${known} outcomes`}${known > met ? `: this search met ${met}, earlier ones ${known - met} more` : ''}, among the first ${grouped(among ?? 0)} states. Later ones weren't told yet.`);
  const other = command === 'outcomes'
    ? [html('li', {}, html('button', { 'data-ask': 'why' }, found === null ? 'Ask why' : 'Show it'), found !== null ? ` “Why” has ${found}.` : ' It looks at the one end that the condition asks for, and needs no states.')]
    : [html('li', {}, html('button', { 'data-ask': 'outcomes' }, 'Find all outcomes'), ' It goes through the states of the machine, and tells no cases apart.')];
  const fewer = 'Name fewer registers and locations in the condition: ends are told apart by these alone. Or take fewer instructions or cores.';
  const isLast = command === 'outcomes' && found !== null;
  return html('ul', 'ways-on', ...(isLast ? [] : other), ...(met > 0 ? [shown] : []), ...(isLast ? other : []), ...(isStopped ? [again] : higher), html('li', {}, fewer));
}

const UNFINISHED = {
  outcomes: count => `The search isn't finished: it kept ${count} states, its limit. So it doesn't know all outcomes.`,
  why: count => `This isn't decided: more than ${count} cases would have to be told apart, the limit. So there is no proof, and no run.`,
};

/** A sheet for a search that met its limit before it had a final state. */
function unfinishedParts(command) {
  const sentence = UNFINISHED[command](valueOf(LIMIT_OF[command]).toLocaleString('en'));
  return [answerTitle('Not finished'), ...openVerdict([], sentence), waysOn(command)];
}

on(document, 'click', ({ target }) => {
  const { more, ask: command } = target.dataset ?? {};
  if (command !== undefined) ask(command, { goesThere: true });
  if (more === undefined) return;
  const [name, value] = more.split(' ');
  settingOf(name).value = value;
  ask(Object.keys(LIMIT_OF).find(each => LIMIT_OF[each] === name));
});
