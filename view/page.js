'use strict';

// The page: what keys, buttons, fields and files do, and how it begins.

/** Begins an input of the program, and no line of a run. */
const BEGINS_TEST = /^X86[ \t]/;
const FIRST_TEXT = 'store-buffering.litmus';
const WRITTEN = ['test', 'choices', 'given'];

/** The name of a test, and its row of cores. */
const testHead = text => `${text.match(/^X86.*/)} ${text.match(/^\s*P0\b.*;/m)}`.replace(/\s/g, '');

/** Whether a test came in the place of another at once: with another name or other cores, and more than one other line. */
function isOtherTest(before, after) {
  const [old, now] = [before, after].map(text => text.trim().split('\n'));
  return testHead(before) !== testHead(after) && Math.max(old.length, now.length) - now.filter((line, at) => line === old[at]).length > 1;
}

/** Takes away what belongs to the test before. Answers whether it had choices. */
function beginOtherTest() {
  const hadChoices = choicesText().trim() !== '';
  putChoices('');
  takeBackLent();
  return hadChoices;
}

/** What one writes takes the place of an answer's run, and one stays at one's place. */
function writeOn({ target }) {
  const isCleared = target.id === 'test' && undoing.now !== null && isOtherTest(undoing.now.test, target.value) && beginOtherTest();
  const stalled = drive.isOn ? stallsOf(firstHistory()) : [];
  forgetOwnRun();
  keepPosition(answerNow);
  if (isCleared && drive.isOn) sayOfDriving(`Another test: the choices of the one before are gone. Undo brings them back. ${byId('sentence').textContent}`);
  else if (target.id === 'test' && drive.isOn) stayBeforeStall(stalled);
}

/** A text that came in as a whole: a test goes to the bench, and any other is a line of a run. */
function takeText(text) {
  const why = whyTooLong(text);
  if (why !== null) return saySentence(byId('line'), why);
  if (bench.tso && takeTaughtText(text)) return;
  if (!bench.tso || !BEGINS_TEST.test(text)) return showText(text);
  beginAddress();
  forgetOwnRun();
  endLesson();
  putDrive({ beside: null });
  takeBackLent();
  const isOrder = putInput(text);
  putCommand(isOrder ? 'check' : 'run');
  answerNow();
  bringNear(byId('bench'));
}

/** The choices that came with the example that was taken last. */
const fromExample = { words: null };

/** Takes a text of the list of examples, and brings the machine with it into sight: no answer comes before its question. */
function takeFromLibrary(file) {
  putDrive({ beside: null }); // what stood beside another test
  loadText(file);
  if (bench.answer?.status === REFUSED) return;
  if (/\bseed\b/.test(choicesText())) leaveOutStalls();
  fromExample.words = drive.words;
  if (drive.isOn) showDrive(); // whose the choices are
  byId('test-part').open = byId('about').open = false;
  bringNear(byId('bench'));
  focusMachine();
}

/** Of choices that are drawn from a seed: leaves out those to come that stall and change nothing. What is shown is the same run. */
function leaveOutStalls() {
  if (!drive.isOn) return;
  const { options, steps } = firstHistory(), made = steps.filter(({ outcome }, at) => at < drive.count || outcome !== 'stalled').map(({ choice }) => choice);
  if (made.length === steps.length || options.bus !== 'atomic') return;
  const { history } = historyOf(options, inputOfWords(made));
  if (!history) return;
  beginDrive(history, { test: drive.test, given: null }, drive.count);
  putWords();
}

/** Leads from the test to its machine. */
function driveTest() {
  byId('test-part').open = false;
  byId('run').scrollIntoView({ block: 'start' });
  focusOn(query('[data-choice]:enabled') ?? byId('frame'));
}

async function takeFile(file) {
  takeText(file.size > MOST_TEXT.bytes ? ' '.repeat(MOST_TEXT.bytes + 1) : await file.text());
}

/** Whether an element in which a key goes down scrolls by that key itself. */
function scrollsBy(key, element) {
  const scrolled = element.closest('#frame, #report, .program, .scrolls');
  if (!scrolled) return false;
  return key.startsWith('Arrow') ? scrolled.scrollWidth > scrolled.clientWidth : scrolled.scrollHeight > scrolled.clientHeight;
}

const ASK_KEYS = { o: 'outcomes', w: 'why' };
const ARROW_KEYS = { ArrowLeft: 'back', ArrowRight: 'next', Home: 'first', End: 'all' };

/** Steps the arrows of a cycle by a key, where one is shown and nothing under the focus scrolls by it. */
function stepsArrows({ key, target }) {
  if (!ARROW_KEYS[key] || !sheet.cycle || byId('way-back').hidden || scrollsBy(key, target)) return false;
  sheet.cycle.move(ARROW_KEYS[key]);
  return true;
}

/** In a wide window the test's line is the first in the bar, for Tab too. */
const wideBar = matchMedia('(min-width: 1000px)');
const orderBar = () => (wideBar.matches ? byId('folds').before(byId('bench')) : byId('about').after(byId('bench')));

/** Opens the list of keys, or closes it. */
function toggleKeys() {
  const [title] = byId('keys').children;
  title.focus();
  title.click();
}

const canEdit = () => bench.tso !== null && !isLesson() && !isLecture() && byId('letter-keys').checked;

/** Opens the test, to be written on. */
function editTest(event) {
  event.preventDefault();
  byId('test-part').open = true;
  byId('test').focus();
}

const canAsk = () => bench.tso !== null && !isLesson() && !isUnanswered() && testNow().trim() !== '';

/** Notes that a key acted: the list of keys lies over what it did. */
function doneByKey(event) {
  event.preventDefault();
  byId('keys').open = false;
}

on(document, 'keydown', event => {
  if (event.ctrlKey && event.key === 'Enter' && canAsk()) ask(askedNext());
  const isForOthers = event.target.matches('textarea, select, input:not([type=checkbox])') || event.ctrlKey || event.altKey || event.metaKey || (event.shiftKey && !'+?'.includes(event.key));
  if (!isForOthers && ASK_KEYS[event.key] && canAsk() && byId('letter-keys').checked) return ask(ASK_KEYS[event.key], { goesThere: true });
  if (!isForOthers && event.key === 'e' && canEdit()) return editTest(event);
  if (!isForOthers && event.key === '?' && !isLecture() && byId('letter-keys').checked) return toggleKeys();
  if (!isForOthers && stepsArrows(event)) return doneByKey(event);
  if (isForOthers || !(shown.run || drive.isOn)) return;
  if (KEYS[event.key] && isAsked() && answerByKey(event.key)) return doneByKey(event);
  if (KEYS[event.key] && scrollsBy(event.key, event.target)) return;
  if (KEYS[event.key]) move(KEYS[event.key]);
  else if (!drive.isOn || !driveByKey(event.key)) return;
  doneByKey(event);
});
on(document, 'pointerdown', event => {
  const choice = event.target.closest('[data-choice]')?.dataset.choice;
  if (choice !== undefined) askAhead(choice);
});
on(document, 'click', event => {
  const { copyLink: link, move: way, choices, depth, file, save, machine, choice, stall, judge, cycle, edges } = (event.target.closest('[data-choice]') ?? event.target).dataset;
  if (way !== undefined) move(way);
  else if (choice !== undefined) makeChoice(choice);
  else if (stall !== undefined) makeChoice(stall, true);
  else if (choices !== undefined) loadChoices(choices, depth);
  else if (file !== undefined) takeFromLibrary(file);
  else if (save !== undefined) SAVES[save]();
  else if (link !== undefined) copyLink();
  else if (machine !== undefined) takeMachine(machine);
  else if (judge !== undefined) judgeOrder(judge);
  else if (cycle !== undefined) drawCycle(Number(cycle));
  else if (edges !== undefined) sheet.cycle.move(edges);
});
on(wideBar, 'change', orderBar);
orderBar();
onPress({
  'drive-it': driveTest, 'to-answer': focusAnswer, 'copy-words': copyWords, begin, play: playOrPause, 'draw-seed': drawSeed, 'task-why': askWhy,
  'to-run': backToRun, 'find-outcomes': findOutcomes, 'ask-why': askWhy, 'copy-link': copyLink, 'remove-choices': removeChoices,
  'write-so': writeRepairs,
});
on(byId('line'), 'input', event => show(event.target.value));
on(byId('file'), 'change', event => {
  if (event.target.files.length > 0) takeFile(event.target.files[0]);
});
on(document, 'dragover', event => event.preventDefault());
on(document, 'drop', event => {
  event.preventDefault();
  const { files } = event.dataTransfer;
  if (files.length > 0) takeFile(files[0]);
  else takeText(event.dataTransfer.getData('text'));
});
new IntersectionObserver(seen => seeChoices(seen.at(-1).isIntersecting)).observe(byId('choices'));
on(byId('choices'), 'input', forgetUnwritten);
on(document, 'beforeinput', refuseTooLong);
for (const id of WRITTEN) on(byId(id), 'input', writeOn);
for (const id of ['test', 'given']) on(byId(id), 'scroll', () => placeLines(id));
on(byId('commands'), 'change', () => {
  showSettings(currentCommand());
  answerNow();
});
on(byId('settings'), 'input', ({ target }) => {
  lent.delete(target.id.slice('set-'.length));
  keepPosition(answerNow);
});
on(byId('skip'), 'click', event => {
  event.preventDefault(); // what stands after # in the address is a test
  (query('[data-choice]:enabled') ?? byId('frame')).focus();
});
on(byId('speed'), 'input', () => setSpeed(Number(byId('speed').value)));
on(byId('beside-it'), 'change', event => putBeside(event.target.value));
on(byId('order-part'), 'toggle', showOrder);
on(byId('legend'), 'toggle', () => drive.isOn && byId('legend').open && bringNear(query('.legend-box')));
on(byId('report-part'), 'toggle', () => byId('report-part').open && showReport());

on(byId('caches'), 'change', event => wantCaches(event.target.checked));
on(byId('search'), 'input', showLibrary);
on(byId('comparison'), 'toggle', () => bench.tso && compareNow());
for (const scrolled of [window, byId('frame')]) on(scrolled, 'scroll', () => (shown.run || drive.isOn) && placeNames(), { passive: true });
on(byId('test-part'), 'toggle', placeAll);
let resized = 0; // the timer of what is laid out once a window's size is settled
on(window, 'resize', () => {
  clearTimeout(resized);
  resized = setTimeout(fitReason, 200);
  placeAll();
  if ((shown.run || drive.isOn) && !matchMedia('print').matches) redraw();
});
on(window, 'hashchange', showAddress);

/** By which element the page says why it has no machine here; null where it has one. */
function lackOf() {
  if (MODULE === null) return 'no-machine';
  return window.WebAssembly && window.DecompressionStream ? null : 'old-browser';
}

/** Fills the bench with the first test, shows what the address tells, and else the first test's run. */
async function start() {
  const lack = lackOf(), hasMachine = lack === null, keptState = window.history.state, told = addressAtFirst(), isOfTest = TEST_ADDRESS.test(told);
  if (!hasMachine) byId(lack).hidden = false;
  byId('input').open = !hasMachine || (told !== '' && !isOfTest);
  if (hasMachine) {
    putInput(partsOf(EXAMPLES[FIRST_TEXT]).test); // nothing is solved beforehand
    putSettings([]);
    putCommand('run');
  }
  if (!hasMachine || !isOfTest) showAddress();
  if (!hasMachine) return;
  try {
    await makeBench();
    byId('bench').hidden = false; // with all else: nothing moves it
    showLibrary(); // with the texts that this machine reads
  } catch (fault) {
    putMessage(`This browser can't open the machine (${fault.message}), so this page draws runs that were made elsewhere.`);
    return;
  }
  beginTeaching(told);
  if (taught.list.length > 0 && location.hash === '') openLecture(keptState?.listed); // that was saved
  else if (isOfTest) showAddress();
  const isOpen = drive.isOn || shown.run || bench.task !== null || bench.answer !== null;
  if (!isOpen && byId('line').value === '') beginAtFirst();
  takeUndoing(keptState);
  if (keptState !== null) takeKeptList(keptState);
  remember();
}

/** Shows the first test, where the address tells nothing, or nothing that could be opened. */
function beginAtFirst() {
  const said = byId('message').textContent;
  answerNow(true);
  putMessage(said);
  kept.atFirst = currentAddress();
}

/** Shows what the page is about, its lessons, and what a saved page brings along. It is folded where somebody was led to a test. */
function beginTeaching(told) {
  byId('about').hidden = false;
  byId('lessons-part').hidden = byId('keys').hidden = bench.tracing === null;
  byId('about').open = told === '' || (told === savedAddress() && !/choices=|exercise=/.test(told));
  drawLessons();
  takeSavedTaught();
}

start();
