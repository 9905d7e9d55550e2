'use strict';

// An exercise: a test with a question, saved as a page that holds no answer. Why and all outcomes are there after the reader's own answer.

const MOST_ASKED = 400; // characters of the question

/** The exercise that was opened: its test, what is asked, what the reader thinks (`can`, `cannot`), what an answer said of that, or null; and whether
 * an answer was seen or a run did it (`isSolved`). */
const exercise = { test: null, asked: '', thought: null, judged: null, isSolved: false };

const isExercise = () => exercise.test !== null && exercise.test === testNow() && !isLesson();
const isUnanswered = () => isExercise() && exercise.thought === null;

function putExercise(told) {
  const asked = told.get('exercise'), thought = told.get('thought'), test = asked === null ? null : told.get('test');
  const isSame = test === exercise.test && thought === exercise.thought;
  Object.assign(exercise, { test, asked: (asked ?? '').slice(0, MOST_ASKED), thought: ['can', 'cannot'].includes(thought) ? thought : null });
  if (!isSame) Object.assign(exercise, { judged: null, isSolved: false });
}

const exerciseToKeep = () => (isExercise() ? [['exercise', exercise.asked], ...(exercise.thought === null ? [] : [['thought', exercise.thought]])] : []);

/** Shows what is asked, the two answers, what the reader said and what came of a try (`after`); hides the ways to the answer until one is given. */
function showExercise(after = '') {
  if (byId('exercise-form').dataset.test !== testNow()) byId('exercise-form').hidden = true;
  const isOn = isExercise(), { asked, thought } = exercise;
  putClass(ROOT, 'unanswered', isUnanswered());
  byId('exercise').hidden = !isOn;
  if (!isOn) return;
  putText(byId('exercise-asked'), asked === '' ? 'Exercise: what do you think?' : `Exercise: ${asked}`);
  for (const button of queryAll('#exercise-answers [data-thought]')) {
    putOff(button, thought !== null); // the one that was pressed keeps the focus
    button.setAttribute('aria-pressed', String(button.dataset.thought === thought));
  }
  const isOpen = thought !== null && !exercise.judged, said = thought === null ? '' : exercise.judged ?? `You said: ${thoughtSaid()}.`;
  const parts = [(said + (after || (thought === null ? 'Try it below, then say what you think.' : ''))).trim()];
  if (isOpen) parts.push(after ? ' ' : ' See whether that is so: ', html('button', { 'data-ask': 'why' }, 'Why can or can\'t it be?'));
  putChildren(byId('exercise-thought'), parts.map(part => part.nodeType ? part : new Text(part)));
}

/** Puts the answers behind the question; where that is the teacher's own, behind the condition, which they answer. */
function placeAnswers(isOwn) {
  const answers = byId('exercise-answers'), place = byId(isOwn ? 'task-said' : 'exercise-asked');
  if (place.nextElementSibling !== answers) place.after(answers);
}

const thoughtSaid = () => (exercise.thought === 'can' ? 'it can be' : 'it can\'t be');

function answerExercise(thought) {
  if (!isUnanswered()) return;
  exercise.thought = thought;
  showExercise();
  if (drive.isOn) showDrive();
}

/** Whether the task over the test would ask a second time what the exercise asks: a yes or no answers both. */
const isAskedTwice = () => isExercise() && exercise.asked !== '' && !/(^|: )(why|how|what)\b/i.test(exercise.asked);

/** On top of an answer: what the reader had said, and whether it is so. A claim of each run asks another thing. */
function judgeThought(can) {
  if (!isExercise() || isUnanswered()) return [];
  exercise.isSolved = true;
  if (quantifierOf(exercise.test) === 'forall') return [];
  const isRight = can === (exercise.thought === 'can');
  exercise.judged = isRight ? `You said ${thoughtSaid()}, and so it is.` : `You said: ${thoughtSaid()}. ${can ? 'It can' : 'It can\'t'}.`;
  return [html('strong', isRight ? 'judged' : 'judged wrong', exercise.judged), html('br', {})];
}

const nameIn = test => /^X86\s+(.*\S)/m.exec(test)?.[1];

/** What a test asks, to begin with: by its line `Asks=`, or by its condition. */
const questionOf = test => notesOf(test).Asks || conditionAsked(test);

/** What a test's condition asks; empty where it has none. */
function conditionAsked(test, { proposition, programs } = readTest(test)) {
  if (proposition === null) return '';
  const wanted = wantedWords(proposition), own = TASKS[`${nameIn(test)} ${proposition}`]?.match(/^Make (.*)\.$/)?.[1] || (wanted && loadsSentence(wanted, programs));
  if (own && quantifierOf(test) === 'exists') return `Can ${own}?`;
  const end = wanted === null ? proposition : wantedSentence(wanted);
  return quantifierOf(test) === 'forall' ? `Does each run end with ${end}?` : `Can a run end with ${end}?`;
}

/** With what a reason begins in a lecture. */
function supposed(test, canBe) {
  const { proposition, programs } = readTest(test), wanted = wantedWords(proposition), isForall = quantifierOf(test) === 'forall', read = wanted && !isForall && loadsSentence(wanted, programs);
  if (!canBe && read) return `Suppose ${read}.`;
  const end = isForall ? 'otherwise' : endWords(wanted);
  return canBe ? `A run ${read ? `in which ${read}` : `that ends ${end}`}, arrow by arrow.` : `Suppose a run ends ${end}.`;
}

/** The task over a test, as a question: where it is to explain what is counted, and that is in sight, why it is so. */
const proposedQuestion = test => cacheTask(test)?.replace(/^[^.]*\. /, '') ?? questionOf(test);

/** The task over a test that is about caches, where they are in sight; else undefined. */
const cacheTask = test => [TASKS[`${nameIn(test)} ${readTest(test).proposition}`]].find(own => isOfCaches(own) && showsCaches(drivenMachines()));

function beginExercise() {
  const form = byId('exercise-form');
  byId(byId('run').hidden ? 'way-back' : 'saves').append(form, byId('list-part'));
  form.hidden = false;
  form.dataset.test = testNow();
  byId('exercise-said').value = questions.get(testNow()) ?? proposedQuestion(inputOf('sweep'));
  byId('exercise-said').focus();
  byId('exercise-said').select();
}

/** A test without the lines that tell what is allowed, or was seen. */
const withoutVerdicts = test => test.replace(/^(?:TSO|SC|Seen)=.*\n/gm, '');

/** The address of an exercise: the test of an address with its settings and what stands beside, and the question. */
function exerciseAt(address) {
  const told = new URLSearchParams(address), test = withoutVerdicts(told.get('test'));
  for (const name of ['choices', 'order', 'command', 'at', 'thought']) told.delete(name);
  told.set('exercise', questions.get(told.get('test')) ?? told.get('exercise') ?? questionOf(test));
  told.set('test', test);
  return told.toString();
}

/** What was asked of each test. */
const questions = new Map();

/** The exercise's address, with what the form asks, or did. */
function exerciseNow() {
  if (!byId('exercise-form').hidden) questions.set(testNow(), byId('exercise-said').value.trim());
  return exerciseAt(currentAddress());
}

function saveExercise() {
  const address = exerciseNow(), asked = new URLSearchParams(address).get('exercise'), { lessons } = taught;
  const seen = `${asked === '' ? '' : ` It asks: “${asked}”`} It starts without choices${drive.beside === ABREAST ? ', with all four protocols' : ''}, and hides the answers until students have answered.`;
  return saveWhole(fileName(`${testName()}-exercise`, '.html'), () => wholePage(address, lessons.length === 0 ? '' : JSON.stringify({ lessons })), seen);
}

function saveExercises() {
  const names = new Map(taught.list.map(entry => [exerciseAt(entry.address), plainName(entry)])), list = [...names].map(([address, name]) => ({ name, address }));
  return saveWhole(listFile('exercises'), () => wholePage(list[0].address, JSON.stringify({ lessons: taught.lessons, list })));
}

Object.assign(SAVES, { exercise: beginExercise, exercises: saveExercises });
on(byId('exercise-form'), 'submit', async event => {
  event.preventDefault();
  const saved = saveExercise();
  byId('exercise-form').hidden = true;
  await saved;
  query('.page-saved:not(:empty)')?.append(' ', listButton({ 'data-see': '', class: 'quiet' }, 'See it as a student'));
});
on(document, 'click', ({ target }) => {
  if (target.dataset?.thought !== undefined) answerExercise(target.dataset.thought);
  if (target.matches('[data-see]')) sayDone('.page-saved', window.open(`${location.pathname}#${exerciseNow()}`) ? 'Opened in a new tab.' : 'No new tab opened.');
});
