'use strict';

// The table of all final states, each with a button for the choices that reach it; or of those that were met.

/** What `outcomes --json` says; of a search that met its limit how many states weren't enough. */
const readOutcomes = text => ({ verdict: null, ...JSON.parse(text) });

/** The sentence on top. */
function observationSentence({ states, observation, depth }, test) {
  const where = depth === 32 ? 'under TSO' : depth === 0 ? 'under sequential consistency' : `with store buffers of depth ${depth}`;
  if (observation === null) return `${states.length === 1 ? 'One outcome' : `${states.length} outcomes`} ${where}.`;
  return countSentence(states.length, observation.true, where, test);
}

/** The same in the words of the field, for both models; nothing where the test has no condition. */
function outcomesInTerms({ observation, verdict, depth }, sequential) {
  if (observation === null) return [];
  const { word, true: yes, false: no } = observation;
  const other = sequential ? ` Under sequential consistency the observation is ${sequential.observation.word}.` : '';
  return [inTerms(`Observation: ${word} (true in ${yes}, false in ${no}).${verdictWords(verdict)}${other}${depth === 32 ? ' A store buffer has room for 32 stores here, whatever yours has: no core has more.' : ''}`)];
}

/** The verdict on the condition, and how many states are as it says. */
function countSentence(all, yes, where, test) {
  const { proposition, programs } = readTest(test), wanted = proposition && wantedWords(proposition), said = wanted && !isLongEnd(wanted) ? wantedSentence(wanted) : 'what the condition says';
  const quantifier = quantifierOf(test), isForall = quantifier === 'forall', few = isForall && yes === all && all > 1 ? `all ${all}` : `${isForall && 0 < yes && yes < all ? 'only ' : ''}${yes || 'none'} of ${all}`;
  const many = `${few} ${all === 1 ? 'outcome' : 'outcomes'} ${where}`, read = wanted && loadsSentence(wanted, programs), count = read ? `${read} in ${many}.` : `${many} ${yes > 1 ? 'have' : 'has'} ${said}.`;
  return `${quantifier === 'exists' ? (yes > 0 ? 'Yes' : 'No') : claimWords(yes === (isForall ? all : 0))}: ${count}`;
}

/** What a search had met that met its limit. */
function readMet(text) {
  const { met = [], verdict = null, unfinished } = JSON.parse(text);
  return { states: met, verdict, unfinished };
}

/** What a search met that has no end; `known` is what earlier ones met too. */
function metSentence({ states, verdict, unfinished }, isStopped, known = states) {
  const many = `${grouped(states.length)} of the outcomes${states.length === 1000 ? ', the most that it follows' : ''}`, kept = `${grouped(unfinished.states)} states`, more = known.length - states.length;
  const earlier = more > 0 ? `, and earlier searches met ${grouped(more)} more` : '';
  const met = isStopped ? `The search was stopped. It met ${many} among its first ${kept}; later ones weren't told yet` : `The search kept ${kept}, its limit, and didn't end. It met ${many}`;
  return `${met}${earlier}. How many there are isn't known${isStopped ? '' : ': another limit can meet others'}.${decidedWords(known)}${verdictWords(verdict)}`;
}

/** That what was met leaves the condition open, where it does, and `why` told nothing. */
function decidedWords(states) {
  const isForall = quantifierOf(testNow()) === 'forall';
  return isDecided(states) !== false || knownByWhy() !== null ? '' : ` ${isForall ? 'All of them meet' : 'None of them meets'} the condition, which alone decides nothing.`;
}

/** What searches of one test without an end have met, by the values. */
const everMet = { asks: null, states: new Map() };

/** What this search and earlier ones of the same test have met: a longer one doesn't meet all that a shorter one did. */
function allMet(states, depth) {
  const asks = JSON.stringify([searchedInput('outcomes'), depth]);
  if (everMet.asks !== asks) Object.assign(everMet, { asks, states: new Map() });
  for (const state of states) everMet.states.set(valuesText(state.values), state);
  return [...everMet.states].sort().map(([, state]) => state);
}

const valuesText = values => Object.entries(values).map(([name, word]) => `${name}=${word}`).join(' ');

/** How many outcomes sequential consistency has, and how many are new under TSO. */
function besideSentence(outcomes, sequential) {
  const isNew = newStates(outcomes, sequential), count = isNew.filter(Boolean).length;
  const none = outcomes.observation === null ? 'The test has no condition. ' : '';
  const many = sequential.states.length === 1 ? 'one outcome' : `${sequential.states.length} outcomes`;
  return `${none}Sequential consistency has ${many}: ${count === 0 ? 'none is new here' : `${count} ${count === 1 ? 'is' : 'are'} new here`}.`;
}

/** Of each state whether sequential consistency lacks it. */
function newStates({ states }, sequential) {
  const there = new Set(sequential.states.map(({ values }) => valuesText(values)));
  return states.map(({ values }) => !there.has(valuesText(values)));
}

const MOST_RUN = 100; // states for which easy choices are sought

/** Of each state whether the proposition is true of it; null where the answer doesn't tell. */
const truthsOf = ({ observation, states }) => (observation !== null && states.every(({ holds }) => typeof holds === 'boolean') ? states.map(({ holds }) => holds) : null);

const LONG_CHOICES = 80; // letters, from which on choices are folded
const WIDE_CHOICES = 24; // the same in a wide table

/** Choices, folded where they are many. */
function foldedChoices(choices, long = LONG_CHOICES, before = '') {
  if (choices.length < long) return [choices === '' ? '(none)' : choices];
  return [html('details', 'small', html('summary', {}, `${before}${countChoices(choices)} choices`), html('code', {}, choices))];
}

const lastWord = ({ registers, memory }, name) => memory.get(name) ?? registers[name[0]]?.get(name.slice(2)); // of a run

/** The choices that are told for each state: where SC has it too no load passes a store, where it is sought each that can. */
function waysTo({ states, depth }, sequential, sought) {
  const { programs } = readTest(inputOf('outcomes')), late = lateRun(programs, depth)?.choices, few = states.length > MOST_RUN ? [] : sequential?.states;
  const calm = new Map(few?.map(({ values, choices }) => [valuesText(values), drainedAtOnce(programs, choices)]));
  return states.map(({ values, choices }, at) => [calm.get(valuesText(values)), sought?.[at] && late].find(each => {
    const run = each && runOf(each, 'tso');
    return run && Object.keys(values).every(name => lastWord(run, name) === values[name]);
  }) ?? choices);
}

/** The column of the condition: its head, and its words for a state that is sought (or breaks a claim) and for others. */
const columnOf = quantifier => (quantifier === 'exists' ? ['Condition', '✓ true', 'false'] : ['Claim', '✗ breaks it', 'keeps it']);

/** A row for each state: the verdict, the places, and a button that has the choices for `loadChoices`. */
function outcomesTable(outcomes, sequential, truths) {
  const { states, depth } = outcomes, names = Object.keys(states[0].values), isNew = sequential && newStates(outcomes, sequential);
  const quantifier = quantifierOf(inputOf('outcomes')), [condition, yes, no] = columnOf(quantifier), sought = truths?.map(truth => truth === (quantifier !== 'forall'));
  const ways = waysTo(outcomes, sequential, sought);
  const verdicts = [...(sequential ? ['Under'] : []), ...(truths ? [condition] : [])], titles = [...verdicts, ...names, 'Choices that lead there', ''];
  const sheet = tableOf('Final states', titles, states.map(({ values }, at) => html('tr', sought?.[at] ? { class: 'met' } : {},
    ...(sequential ? [html('td', 'unbroken', isNew[at] ? html('strong', {}, 'TSO alone') : 'TSO and SC')] : []),
    ...(truths ? [html('td', sought[at] ? 'unbroken' : 'faint unbroken', sought[at] ? yes : no)] : []),
    ...names.map(name => html('td', { class: 'number', 'data-name': name }, String(values[name]))),
    html('td', 'wraps way', ...foldedChoices(ways[at], names.length > FEW_COLUMNS ? WIDE_CHOICES : LONG_CHOICES)),
    html('td', {}, html('button', { class: 'goes', 'data-choices': ways[at], 'data-depth': depth, 'aria-label': `Run to ${valuesText(values)}` }, 'Run them')))));
  if (outcomes.unfinished === undefined) sheet.querySelector('table').append(...neverRow(names, verdicts.length, truths));
  return sheet;
}

/** The row of what the condition asks for, where no state is so: struck through, below. The verdict has `before` cells. */
function neverRow(names, before, truths) {
  const { proposition } = readTest(inputOf('outcomes')), wanted = truths?.every(truth => !truth) && proposition !== null ? wantedWords(proposition) : null;
  const words = new Map(wanted?.map(({ core, register, location, word }) => [location ?? `${core}:${register}`, word]));
  if (wanted === null || names.filter(name => words.has(name)).length !== words.size) return [];
  const cells = names.map(name => html('td', { class: 'number', 'data-name': name }, words.has(name) ? html('s', {}, String(words.get(name))) : 'any'));
  return [html('tfoot', {}, html('tr', 'never', html('td', { colspan: before, class: 'prose' }, html('strong', {}, 'never')), ...cells, html('td', { colspan: 2, class: 'prose' }, 'in no run')))];
}
