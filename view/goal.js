'use strict';

// The task that stands over a test with a condition: to end as it asks. Where that can't be, or nobody knows yet, it is a question.

/** Tasks that have words of their own, by the test's name and its proposition. */
const TASKS = {
  'SBF 0:EAX=0 /\\ 1:EAX=0': 'Make both loads read 0, past the fences.',
  'false-sharing 1:EAX=1': 'Step to the end. Each core uses its own word alone: why does each access miss?',
  'false-sharing-loads 0:EBX=1': 'Step to the end, under all four. How do the protocols differ?',
};

/** Whether a task is about what caches do: it is for who sees them. */
const isOfCaches = task => task?.startsWith('Step to') === true;

/** The places of a proposition with the words that it wants there, where it speaks of nothing else; else null. */
function wantedWords(proposition) {
  const parts = proposition.split('/\\').map(part => /^\(*\s*(?:(\d):([A-Z]{3})|\[?([A-Za-z_]\w*)\]?)\s*=\s*(\d+)\s*\)*$/.exec(part.trim()));
  if (parts.includes(null)) return null;
  return parts.map(([, core, register, location, word]) => ({ ...(location === undefined ? { core: Number(core), register } : { location }), word: Number(word) }));
}

const isRegister = ({ register }) => register !== undefined;
const wantedSentence = places => listed(places.map(part => `${part.word} in ${placeWords(part)}`));
const MANY_TERMS = 4; // that an answer has in words; a task has two more
const isLongEnd = places => places !== null && places.length > MANY_TERMS;
const endWords = places => (places === null || isLongEnd(places) ? 'so' : `with ${wantedSentence(places)}`);

/** A condition's quantifier and its proposition, as they are written. */
const conditionOf = test => /^\s*(~\s*exists|exists|forall)\b([^]*)/m.exec(test.replace(/\(\*[^]*?\*\)/g, '')).slice(1).map(part => part.trim().replace(/\s+/g, ' '));

/** A long condition as it is written. */
function termsPart(test) {
  const { proposition } = readTest(test);
  return isLongEnd(proposition && wantedWords(proposition)) ? [html('p', 'small condition', html('code', {}, conditionOf(test).join(' ')))] : [];
}

const placeWords = ({ core, register, location }) => (register === undefined ? location : `P${core}'s ${register}`);

/** The same of two loads, where a test has no others; else empty. Locked instructions load too: beside them the two are named. */
function loadsSentence(places, programs) {
  const texts = programs.flat(), [one, other] = places, loads = places.map(({ core, register }) => programs[core]?.find(text => text.startsWith(`MOV ${register},[`)));
  if (places.length !== 2 || one.word !== other.word || loads.includes(undefined) || texts.filter(text => /^MOV \w+,\[/.test(text)).length !== 2) return '';
  const names = loads.map((text, at) => `P${places[at].core}'s load of ${text.split(/[[\]]/)[1]}`);
  return `${texts.some(text => /^(LOCK|XCHG)/.test(text)) ? names.join(' and ') : 'both loads'} read ${one.word}`;
}

/** The quantifier of a test's condition, or null. */
const quantifierOf = test => /^[ \t]*(~[ \t]*exists|exists|forall)\b/m.exec(test)?.[1].replace(/\s/g, '') ?? null;

/** What a task asks for, in words. `forall` is shown wrong by any other end. */
function taskSentence(name, proposition, quantifier, programs) {
  const own = TASKS[`${name} ${proposition}`], wanted = wantedWords(proposition);
  if (own && quantifier === 'exists' && (!isOfCaches(own) || (showsCaches(drivenMachines()) && !isExercise()))) return own;
  if (wanted?.length > MANY_TERMS + 2) return `End ${quantifier === 'forall' ? 'otherwise than' : 'as'} the condition asks, with ${wanted.length} values.`;
  const said = wanted ? wantedSentence(wanted) : proposition, ofLoads = wanted && quantifier !== 'forall' && loadsSentence(wanted, programs);
  if (ofLoads) return `Make ${ofLoads}.`;
  return quantifier === 'forall' ? `End otherwise than with ${said}.` : `End with ${said}.`;
}

const CLAIMS = { exists: '', '~exists': 'The test claims that no run ends so. ', forall: 'The test claims that each run ends so. ' };

/** What stands before a task: that it can be done is a question, until the reader knows it. */
const taskTitle = (can, task) => (can || isOfCaches(task) ? 'Task:' : 'Can this be done?');

/** The word at a place that a proposition names, after so many steps. */
function wordAtPlace(machine, { core, register, location }) {
  return register === undefined ? machine.seen[location] : machine.cores[core]?.registers[register];
}

/** Whether the words at some places are settled: registers when no core has an instruction left, memory when nothing waits either. */
function areSettled(history, count, places) {
  if (history.hasEnded(count)) return true;
  return places.every(isRegister) && history.machineAfter(count).cores.every((core, at) => core.place === history.programs[at].length);
}

/** The places whose words are others than is wanted, each with the word that is there. */
function missedPlaces(history, count, places) {
  const machine = history.machineAfter(count);
  return places.map(part => ({ ...part, is: wordAtPlace(machine, part) })).filter(({ is, word }) => is !== word);
}

/** Whether a proposition is true after so many steps; null where that isn't settled yet. */
function isTrueAfter(history, count, condition) {
  const places = wantedWords(history.proposition);
  if (!places) return condition?.holds ?? null;
  return areSettled(history, count, places) ? missedPlaces(history, count, places).length === 0 : null;
}

/** Whether the task is met; null where that isn't settled. */
function isMet(history, count, condition, quantifier) {
  const isTrue = isTrueAfter(history, count, condition);
  return isTrue === null ? null : isTrue !== (quantifier === 'forall');
}

/** The registers whose last word is another than is wanted: no instruction that is left names them. CMPXCHG writes EAX without naming it. */
function lostPlaces(history, count, places) {
  const { cores } = history.machineAfter(count);
  const isLast = ({ core, register }) => history.programs[core] !== undefined && !history.programs[core].slice(cores[core].place)
    .some(text => text.includes(register) || (register === 'EAX' && text.includes('CMPXCHG')));
  return missedPlaces(history, count, places.filter(isRegister).filter(isLast));
}

/** Of a run that isn't over: says when the task can't be reached in it any more, and what to do. */
function lostSentence(history, count, quantifier) {
  const places = quantifier === 'forall' ? null : wantedWords(history.proposition);
  const lost = places ? lostPlaces(history, count, places).map(part => `${placeWords(part)} is ${part.is}, not ${part.word}`) : [];
  return lost.length === 0 ? '' : ` No longer possible in this run: ${listed(lost)}. Press Undo, or go back.`;
}

/** What was another than is wanted, in words. */
function missedSentence(history, count, quantifier) {
  const places = wantedWords(history.proposition);
  if (quantifier === 'forall' || !places) return 'Not met this time.';
  const missed = missedPlaces(history, count, places).map(part => `${placeWords(part)} ended as ${part.is}, not ${part.word}`);
  return `Not met this time: ${listed(missed)}.`;
}

/** That it is done; where misses were to be counted, how many there are. */
function doneWord(history, count) {
  const isCounted = isOfCaches(TASKS[`${testName()} ${history.proposition}`]) && showsCaches(drivenMachines());
  if (!isCounted) return 'Done.';
  const under = drive.histories.length > 2 ? `Under ${history.options.protocol.toUpperCase()}: ` : 'With ';
  return `Done. ${under}${tallyText(history.steps, count).replace('so far ', '')}.`;
}

const FEW_CHOICES = 20; // to make by hand
const SHORT_TASK = 30; // letters: what is said after it stands in one line with it in a wide window

/** What is said after a try. */
function afterTry(history, count, met, quantifier, can) {
  if (met === null) return isRefuted() ? '' : lostSentence(history, count, quantifier);
  if (!met) return ` ${missedSentence(history, count, quantifier)}${can ? ' Go back, or make other choices.' : ''}`;
  const isOfAnswer = isAnswersRun(), done = isOfAnswer ? '' : doneWord(history, count);
  const then = isOfAnswer && history.steps.length <= FEW_CHOICES ? 'Now make it yourself.' : '';
  return [done, quantifier === 'exists' ? '' : 'So the claim of the test is wrong.', then].map(words => words && ` ${words}`).join('');
}

/** What loads passed in a try that was met. A wide window has it beside the picture alone. */
function moreOfTry(history, count, met) {
  if (!met) return '';
  const passes = passesOf(history.order.slice(0, history.momentAfter(count).rows), '').filter(sentence => sentence !== ''), more = passes.splice(FEW_PASSES).length;
  return passes.map(words => ` ${words}`).join('') + (more > 0 ? ` And ${more} more.` : '');
}

/** The task in words: done, or known to be impossible since an answer said so, or open. */
function taskWords(quantifier, proposition, { isDone, isShown }, can) {
  const task = `${CLAIMS[quantifier]}${taskSentence(testName(), proposition, quantifier, firstHistory().programs)}`;
  if (isDone) return `✓ Task: ${task}`;
  return isRefuted() ? `${task} It can't be done: ${quantifier === 'forall' ? 'each' : 'no'} run ends so.` : `${isShown ? '▷ Shown by the answer:' : taskTitle(can, task)} ${task}`;
}

const lectured = { key: null }; // of which test the question stands there

/** What a lecture asks, in short, over its machine: the name that somebody gave the entry of the list, or what the test asks. */
function showQuestion(asked = drive.test) {
  if (!isLecture()) return;
  const own = isOfEntry(false) ? ownNameOf(taught.list[playlist.at]) : '';
  const test = isExercise() || isLesson() ? '' : asked, lines = test && linesSaid(), key = `${test}${byId('run').className}${own}${lines}`;
  if (lectured.key === key) return;
  putText(byId('asked-line'), test === '' ? '' : own || proposedQuestion(test).replace(/^.*: w/, 'W'));
  setAll(byId('test-line'), { 'data-lines': lines });
  lectured.key = key;
}

/** Shows the task, and what came of a try: in an exercise at the answers, of one that missed with an offer to say why. `run`: the run that ended. */
function showTask(history, count, run) {
  showQuestion();
  const { proposition } = history, quantifier = quantifierOf(drive.test), hasTask = proposition !== null && quantifier !== null && !isLesson(), isAsked = isAskedTwice();
  putText(byId('asks'), hasTask && proposition.length < 2 * SHORT_TASK ? conditionAsked(drive.test, history) : '');
  byId('task').hidden = !hasTask || isAsked;
  placeAnswers(hasTask && isExercise() && !isAsked);
  if (!hasTask) return showExercise();
  askPossibleSoon();
  const met = isMet(history, count, run?.condition, quantifier), isDone = met === true && !isAnswersRun();
  if (isDone && isExercise()) exercise.isSolved = true;
  if (isDone) judgeThought(true);
  if (isDone) possible.told = drive.test;
  const can = (!isExercise() || exercise.isSolved) && isKnownToBe(), after = afterTry(history, count, met, quantifier, can), { classList } = byId('task');
  classList.toggle('met', isDone);
  putClass(byId('exercise'), 'met', isDone);
  classList.toggle('short', !isExercise() && (CLAIMS[quantifier] + taskSentence(testName(), proposition, quantifier, history.programs)).length <= SHORT_TASK);
  putText(byId('task-said'), isAsked ? '' : taskWords(quantifier, proposition, { isDone, isShown: met === true && !isDone }, met ? true : can));
  const offers = (isDone || (met === false && !can && !isExercise())) && !isUnanswered() && query('#commands [value=why]') !== null;
  showExercise(after);
  putText(byId('task-after'), isExercise() ? '' : after);
  putText(byId('task-more'), isExercise() ? '' : moreOfTry(history, count, met));
  byId('task-why').hidden = !offers;
  putText(byId('task-why'), !offers ? '' : isDone ? 'Why can it be?' : 'Why can or can\'t it be?');
  putClass(byId('task-why'), 'quiet', isDone);
}
