'use strict';

// A lesson that runs: its steps are told, asked, and done on the machine. The lessons themselves are data (lessons.js, taught.js).

const IN_LESSON = Object.freeze({ told: null, at: 0, isDone: false, answer: null, before: '', refused: '', since: 0, isStrayed: false, views: '' });

/** The lesson that runs (`told`, or null), its step, how far and `since` when, what came `before` it, whether the reader went another way, and the `views`
 * in the machine's place. */
let lesson = IN_LESSON;
const isLesson = () => lesson.told !== null;

const putLesson = changes => { lesson = Object.freeze({ ...lesson, ...changes }); };

/** The lessons whose tests this machine reads. */
const lessonsHere = () => LESSONS.filter(({ text }) => text === undefined || textsHere().some(entry => entry.file === text));
const lessonNamed = name => lessonsHere().find(each => each.name === name);
const nextLesson = () => lessonsHere()[lessonsHere().indexOf(lesson.told) + 1];
const stepNow = () => lesson.told.steps[lesson.at];

/** The step at which a step's part begins: the last one up to it that has a test of its own, or the first. */
const beginOf = (steps, at) => Math.max(0, steps.findLastIndex((step, each) => each <= at && step.test !== undefined));
/** Whether a step is made in the place of Next, and goes on to a question. */
function isPassedBy(steps, at) {
  const { do: word, look, test } = steps[at], next = steps[at + 1];
  return word && !look && !test && at > 0 && !steps[at - 1].show && next?.ask && !next.test;
}
/** The place of a step in its part, counted as shown. */
function showPlace({ steps }, at) {
  const begins = [0, ...steps.flatMap(({ test }, each) => (test !== undefined && each > 0 ? [each] : [])), steps.length];
  const part = begins.findLastIndex(each => each <= at), shownTo = end => steps.slice(begins[part], end).filter((_, each) => !isPassedBy(steps, begins[part] + each)).length;
  const value = shownTo(at + 1), max = shownTo(begins[part + 1]);
  putText(byId('lesson-place'), `${begins.length > 2 ? `Part ${part + 1} of ${begins.length - 1}, s` : 'S'}tep ${value} of ${max}`);
  setAll(byId('lesson-bar'), { value, max });
}
/** What a step says names its button. */
const pressWords = word => `${isDrain(word) ? 'drain' : 'step'} at P${coreOfChoice(word)}`;
const pressSaid = ({ say = '', do: word }) => (/press/i.test(say) ? [say] : [say && `${say} `, html('strong', {}, `Press ${pressWords(word)}`), ' ', html('kbd', {}, word)]);

/** The choices that the steps before one make, on its test. */
const choicesBefore = (steps, at) => steps.slice(beginOf(steps, at), at).flatMap(step => step.do ?? []);
/** The choice that is awaited, or undefined. The next step's is told at once, and made in the place of Next. */
function wantedNow() {
  const { told, at, isDone, isStrayed, views } = lesson, { do: word, test } = told?.steps[at + isDone] ?? {};
  return isStrayed || (isDone && (test !== undefined || views !== '')) ? undefined : word;
}
/** The title of the part that one is in. */
const partTitled = () => lesson.told.steps[beginOf(lesson.told.steps, lesson.at)].title ?? lesson.told.title;
/** Whether a part ends here, with what was learned. */
function isSum() {
  const { told: { steps }, at, isDone } = lesson, next = steps[at + 1];
  return isDone && steps[at].say !== undefined && steps[at].then === undefined && (!next || next.test !== undefined);
}
const isAsked = () => isLesson() && !lesson.isDone && stepNow().ask !== undefined;

/** The number of the next step that asks or does something on this test, or -1. */
function nextToAct() {
  const { told, at, isDone, isStrayed } = lesson;
  const next = isDone && !isStrayed ? told.steps.findIndex((step, each) => each > at && (step.ask ?? step.do ?? step.show ?? step.test)) : -1;
  return told?.steps[next]?.test ? -1 : next;
}
/** Whether Next comes to a question: the machine waits as it does there. */
const isOnlyRead = () => lesson.told?.steps[nextToAct()]?.ask !== undefined;

/** What its part showed since the last choice, which stands in place of the machine. */
function viewsAt(steps, at, isDone) {
  const since = steps.slice(beginOf(steps, at), at + 1), shows = since.slice(since.findLastIndex(step => step.do !== undefined) + 1, isDone ? undefined : -1);
  return shows.flatMap(step => step.show ?? []).join();
}
const isViewed = views => (/outcomes|why/.test(views) ? !drive.isOn && views.endsWith(currentCommand()) : drive.isOn && drive.histories.length > 2);
/** Whether the machine stands where a step begins. */
const isAtPlace = ({ told: { steps }, views, isStrayed, at: now }, at) => drive.isOn && views === '' && !isStrayed && beginOf(steps, at) === beginOf(steps, now) &&
  drive.count === drive.words.length && drive.words.join() === choicesBefore(steps, at).join();

/** What a step's machine is made of: the lesson, or the step's own test in its place. */
function testOf(told, at) {
  const { test } = told.steps[beginOf(told.steps, at)];
  return test === undefined ? told : { test, settings: told.settings };
}

/** What a step's button asks the proved code. */
const LESSON_SHOWS = {
  outcomes: { says: 'Find all outcomes', act: () => findOutcomes() },
  why: { says: 'Why can or can\'t it be?', act: () => askWhy() },
  abreast: { says: 'All four protocols', act: () => putBeside(JSON.stringify(ABREAST)) },
  apart: { says: 'One word in a line', act: () => { settingOf('words').value = 1; keepPosition(answerNow); } },
};

function beginLesson(name, at = 0) {
  const told = lessonNamed(name);
  if (!told) return;
  if (!isLesson() && leftLesson?.test !== testNow()) ownBefore = isFirstTest() ? null : snapshotNow();
  putLesson({ ...IN_LESSON, told, isStrayed: true });
  cachesView.wanted = told.caches ? true : null;
  byId('about').open = byId('test-part').open = false;
  enterStep(Math.min(Math.max(0, at), told.steps.length - 1));
  bringNear(byId('lesson'));
  focusStep();
}

/** Puts a lesson's test into the fields, with choices that are made. */
function putTestOf({ text, test, settings = {} }, choices) {
  const entry = LIBRARY.find(each => each.file === text), { depth = SET_AT_FIRST.depth, words = SET_AT_FIRST.words } = entry ?? {};
  putInput(test ?? partsOf(entry.text).test);
  putSettings(Object.entries({ depth, words, ...settings }));
  putChoices(choices.join(' '));
  putDrive({ beside: null });
  forgetOwnRun();
  putCommand('run');
  answerNow();
}

/** Comes to a step. `isBack`: what it showed stands there again. */
function enterStep(at, { isBack = false, before = '' } = {}) {
  const { steps } = lesson.told, { ask: question, do: word, show: shows } = steps[at];
  const isDone = question === undefined && word === undefined && (shows === undefined || isBack), views = viewsAt(steps, at, isDone);
  const { then, because, say } = word !== undefined && at > beginOf(steps, at) ? steps[at - 1] : {}; // from which it goes on
  const isThere = views === '' ? isAtPlace(lesson, at) : views === lesson.views && isViewed(views);
  putLesson({ ...IN_LESSON, told: lesson.told, at, isDone, before: before || then || because || say || '', since: performance.now(), views });
  if (!isThere) {
    putTestOf(testOf(lesson.told, at), choicesBefore(steps, at));
    for (const view of views.split(',')) LESSON_SHOWS[view]?.act();
  }
  drawLesson();
  lookAtPicture();
  keepAddressSoon();
}

/** Leads back to the lesson's place, or to the step before. */
function goBack() {
  const { told: { steps }, at, isDone, isStrayed } = lesson;
  if (!isStrayed) return enterStep(at - 1, { isBack: true });
  putLesson({ isStrayed: false, refused: '' });
  putTestOf(testOf(lesson.told, at), choicesBefore(steps, at).concat(isDone ? steps[at].do ?? [] : []));
  drawLesson();
  focusStep();
}

/** Ends the lesson, if one runs: the machine is free, and its task stands there again. */
function endLesson() {
  if (!isLesson()) return;
  putLesson(IN_LESSON);
  cachesView.wanted = null;
  drawLesson();
  if (drive.isOn) showDrive();
  showTestLine(currentCommand());
  keepAddressSoon();
}

/** The lesson that was left last, at which step, and its test; null before. And what stood there before a lesson, where it was a test of one's own. */
let leftLesson = null, ownBefore = null;

const isFirstTest = () => testNow() === partsOf(EXAMPLES[FIRST_TEXT]).test;

/** Leaves the lesson: its run stays. */
function leaveLesson() {
  const { told: { name, steps }, at, isDone } = lesson, title = partTitled(), next = isDone && at === steps.length - 1 ? nextLesson() : undefined;
  endLesson();
  leftLesson = { name: next?.name ?? name, title, at: next ? 0 : at, on: next?.title.split(':')[0], test: testNow() };
  showLeft();
  bringNear(byId('left-lesson'));
  focusOn(byId('lesson-again'));
}

/** Shows one's own test again, from which a lesson led away; else the first test, as the page does when it opens. */
function toFirstTest() {
  const own = leftLesson?.test === testNow() ? ownBefore : null;
  forgetOwnRun();
  if (own !== null) return restore(own);
  beginAddress();
  putDrive({ beside: null });
  putInput(partsOf(EXAMPLES[FIRST_TEXT]).test);
  putSettings([]);
  putCommand('run');
  answerNow(true);
  bringNear(byId('run'));
}

/** Says whose test this is after a lesson was left. Also leads back from one with an error. */
function showLeft() {
  const isLeft = leftLesson?.test === testNow(), isRefused = byId('test').matches('[aria-invalid=true]');
  byId('left-lesson').hidden = isLesson() || !(isLeft || isRefused);
  byId('lesson-again').hidden = !isLeft;
  if (isLeft) putText(byId('lesson-again'), leftLesson.on ? `Next lesson: ${leftLesson.on}` : 'Go on with the lesson');
  const goesOn = drive.isOn && drive.count > 0 ? ', and your run goes on' : '';
  putText(byId('left-said'), isLeft ? `This is the test of the lesson “${leftLesson.title}”${goesOn}.` : 'This test has an error.');
  const isOwn = isLeft && ownBefore !== null;
  byId('to-first-test').hidden = isFirstTest() && !isOwn;
  putText(byId('to-first-test'), isOwn ? 'Back to your own test' : 'Back to the first test');
}

/** Whether a choice is made: not while a question waits or comes next, since it may tell the answer. The lesson's own one is made in the place of Next. */
function lessonAllows(word) {
  const next = nextToAct();
  if (isAsked()) sayInLesson('First answer the question.');
  else if (isOnlyRead()) focusStep();
  else if (lesson.views === '' && lesson.told?.steps[next]?.do === word) enterStep(next);
  return !isAsked() && !isOnlyRead();
}

function sayInLesson(refused) {
  putLesson({ refused });
  drawLesson();
  if (isAsked()) focusStep();
}

/** Goes on where the choice was the awaited one. Another is the reader's own way. */
function lessonDid(word) {
  if (!isLesson()) return;
  const { told: { steps }, at, isDone, isStrayed } = lesson, { do: wanted, then, look } = steps[at], next = steps[at + 1];
  const isOther = isStrayed || isDone || wanted !== word, wasNext = focused() === byId('lesson-next');
  if (!isOther && look === undefined && next?.ask !== undefined && next.test === undefined) enterStep(at + 1, { before: then });
  else putLesson(isOther ? { isStrayed: true, refused: '' } : { isDone: true, refused: '', before: '' });
  drawLesson();
  if (!isOther) focusStep();
  else if (wasNext) focusOn(byId('lesson-back'));
  lookAtPicture();
}

function answerLesson(answer) {
  putLesson({ isDone: true, answer, refused: '' });
  drawLesson();
  if (drive.isOn) showDrive(); // what was refused before isn't any more
  focusStep();
}

function showInLesson() {
  const { act } = LESSON_SHOWS[stepNow().show];
  putLesson({ isDone: true, refused: '', views: viewsAt(lesson.told.steps, lesson.at, true) });
  drawLesson();
  focusOn(byId('lesson-next'));
  act();
}

// What is drawn.

function judgedAnswer({ right, because }, answer) {
  if (right === undefined) return because;
  return `${answer === right ? 'Right.' : `Not so: the answer is “${right}”.`} ${because}`;
}

const SHORT_SAID = 80; // letters: they stand beside Back

const putSaid = (id, said) => {
  byId(id).hidden = said === '';
  putText(byId(id), said);
};

function showSentences() {
  const step = stepNow(), { isDone, answer, refused, isStrayed, before, told: { steps }, at } = lesson;
  putSaid('lesson-before', before);
  putSaid('lesson-said', step.ask ?? (step.do === undefined ? step.say : ''));
  putClass(byId('lesson-said'), 'sum', isSum());
  putSaid('lesson-after', isStrayed ? `You may go your own way. ${drawn.panels[0]?.sentences.join(' ')}` : refused || (isDone && (step.ask === undefined ? step.then : judgedAnswer(step, answer))) || '');
  fill(byId('lesson-now'), ...(isAsked() ? (refused === '' ? ['Answer first', byId('letter-keys').checked ? html('span', 'by-key', `: press ${step.answers.map((_, each) => keyOf(step.answers, each)).join(', ').replace(/, (?=\S$)/, ' or ')}`) : '', '.'] : []) : wantedNow() === undefined ? [] : pressSaid(steps[at + isDone])));
  putClass(byId('lesson-now'), 'short', byId('lesson-now').textContent.length <= SHORT_SAID);
  const judged = isStrayed || answer === null || step.right === undefined ? '' : answer === step.right ? 'right' : 'wrong';
  byId('lesson-after').className = `after ${refused === '' ? judged : 'wrong'}`;
}

function lessonButtons() {
  const { answers = [], right, show } = stepNow(), { answer: given, isDone } = lesson, button = (attributes, ...parts) => html('button', { ...attributes }, ...parts);
  const stateOf = answer => (given === null ? {} : { disabled: '', class: answer === right ? 'right' : '' });
  return [
    ...answers.map((answer, at) => button({ 'data-answer': answer, 'aria-keyshortcuts': keysOf(answers, at).join(' '), 'aria-pressed': answer === given, ...stateOf(answer) },
      ...(keyOf(answers, at) === answer ? [html('kbd', 'digit', answer)] : [html('kbd', { 'aria-hidden': 'true' }, keyOf(answers, at)), answer]))),
    ...(show === undefined ? [] : [button({ 'data-show': show, class: isDone ? '' : 'main' }, LESSON_SHOWS[show].says)]),
  ];
}

function markWanted() {
  const wanted = wantedNow();
  for (const button of queryAll('[data-choice]')) putClass(button, 'wanted', button.dataset.choice === wanted);
}

function showNext() {
  const { told: { steps }, at } = lesson, isLast = at === steps.length - 1, next = nextLesson(), part = steps[at + 1]?.title;
  byId('lesson-next').textContent = part ? `Next: ${part}` : !isLast ? 'Next' : next ? `Next lesson: ${next.title.split(':')[0]}` : 'End of the lesson';
  byId('lesson-next').hidden = !lesson.isDone || lesson.isStrayed || wantedNow() !== undefined;
  byId('lesson-back').disabled = at === 0 && !lesson.isStrayed;
  byId('lesson-back').textContent = lesson.isStrayed ? 'Back to the lesson\'s place' : 'Back';
  putText(byId('lesson-also'), stepNow().also?.says ?? '');
}

function lookAtPicture() {
  const isLooked = isLesson() && lesson.isDone && stepNow().look === 'picture';
  putClass(byId('frame'), 'looked', isLooked);
  if (isLooked) bringNear(byId('frame'));
}

function drawLesson() {
  const isOn = isLesson(), { classList } = ROOT;
  classList.toggle('learning', isOn);
  classList.toggle('questioned', isAsked());
  classList.toggle('read', isOnlyRead());
  classList.toggle('begun', isOn && lesson.at > beginOf(lesson.told.steps, lesson.at));
  classList.toggle('to-arrows', isOn && /Next arrow/.test(lesson.told.steps[lesson.at].say));
  const { at, isDone } = lesson, asked = isOn && lesson.told.steps.findIndex((step, each) => step.ask && each >= beginOf(lesson.told.steps, at));
  classList.toggle('unasked', isOn && at < asked + !isDone); // what waits may tell the answer
  byId('lesson').hidden = !isOn;
  showLeft();
  markWanted();
  markLessons();
  if (!isOn) return;
  putText(byId('lesson-title'), partTitled());
  showPlace(lesson.told, at);
  showSentences();
  fill(byId('lesson-answers'), ...lessonButtons());
  showNext();
}

function goOn() {
  const { told: { steps }, at } = lesson;
  if (wantedNow() !== undefined) return makeChoice(wantedNow());
  if (at < steps.length - 1) {
    enterStep(at + 1);
    focusStep();
    return;
  }
  const next = nextLesson();
  if (next) beginLesson(next.name);
  else (ownBefore === null ? endLesson : leaveLesson)();
}

/** Goes where a step's link leads: to a lesson, or to a fold beside the test. */
function goElsewhere() {
  const { to } = stepNow().also, fold = byId(to);
  if (lessonNamed(to)) return beginLesson(to);
  byId('test-part').open = fold.open = true;
  fold.firstElementChild.focus();
}

/** The button of the next arrow, where a step tells of it. */
const nextArrow = () => /“Next arrow”/.test(stepNow().say) && query('[data-edges=next][aria-disabled=false]');

/** Puts the focus on what a step waits for or asks, and else on Next. */
function focusStep() {
  const waited = isAsked() ? byId('lesson-said') : query('[data-choice].wanted') ?? (nextArrow() || undefined);
  focusOn(waited ?? (lesson.isDone ? null : query('#lesson-answers [data-show]')) ?? byId('lesson-next'));
}

const TYPED_AHEAD = 500; // milliseconds: a digit is a core's, typed before the question was seen

/** What a key does at a question: a digit or a letter answers, arrows lead to the answers. Whether it did anything. */
function answerByKey(key) {
  const { answers } = stepNow(), answer = answers.find((_, at) => keysOf(answers, at).includes(key)), way = { ArrowRight: 1, ArrowLeft: -1 }[key];
  const buttons = [...byId('lesson-answers').children], at = buttons.indexOf(focused());
  if (answer !== undefined && /^[0-7]$/.test(key)) {
    putDrive({ core: Number(key) }); // a choice may be typed as it is written
    if (performance.now() - lesson.since < TYPED_AHEAD) return true;
  }
  if (answer !== undefined) answerLesson(answer);
  else if (way) buttons[Math.min(Math.max(0, at + way), buttons.length - 1)].focus();
  return answer !== undefined || way !== undefined;
}

function showLessons() {
  byId('lessons-part').open = true;
  bringNear(byId('lessons-part'));
  focusOn((byId('lessons').children[1] ?? byId('lessons')).querySelector('button'));
}

const doneParts = new Set(); // each by its lesson and first step; a reload keeps them

/** Ticks the parts that were done, and marks the one that one is in. */
function markLessons() {
  const { told, at } = lesson, now = told && `${told.name} ${beginOf(told.steps, at)}`;
  if (told && isSum()) doneParts.add(now);
  byId('marks-last').hidden = doneParts.size === 0;
  for (const { dataset: { lesson: of, step }, nextSibling } of queryAll('#lessons button')) {
    const part = `${of} ${step}`;
    putText(nextSibling, (doneParts.has(part) ? ' ✓ done' : '') + (part === now ? ' ● here' : ''));
  }
}

/** The buttons by which lessons and their parts begin. */
function drawLessons() {
  const lessons = lessonsHere(), [{ name, title }, second] = lessons;
  byId('first-lesson').dataset.lesson = name;
  byId('first-lesson').textContent = title;
  byId('more-lessons').hidden = !second;
  putText(byId('more-lessons'), `Then: ${second?.title.split(':')[0]}, and more`);
  const link = (of, at, text, ...parts) => html('li', {}, html('button', { 'data-lesson': of, 'data-step': at, class: 'quiet' }, text), html('span', {}), ...parts);
  fill(byId('lessons'), ...lessons.map(each => {
    const parts = each.steps.flatMap(({ title: part }, at) => (part === undefined ? [] : [link(each.name, at, part)]));
    return link(each.name, 0, each.title, ...(parts.length > 0 ? [html('ul', {}, ...parts)] : []));
  }));
}

on(document, 'click', ({ target }) => {
  const { lesson: name, step = 0, answer, show: shows, edges } = (target.closest('[data-answer]') ?? target).dataset ?? {};
  if (edges === 'next' && isLesson() && nextArrow()) setTimeout(focusStep); // then Next
  if (name !== undefined) beginLesson(name, Number(step));
  else if (answer !== undefined) answerLesson(answer);
  else if (shows !== undefined) showInLesson();
});
onPress({
  'lesson-next': goOn, 'lesson-also': goElsewhere, 'lesson-back': goBack, 'lesson-leave': leaveLesson,
  'lesson-again': () => beginLesson(leftLesson.name, leftLesson.at), 'more-lessons': showLessons, 'to-first-test': toFirstTest,
});
