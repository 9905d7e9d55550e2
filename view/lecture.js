'use strict';

// The mode for a lecture hall: the whole screen, larger type, and only what is taught.

const isLecture = () => ROOT.classList.contains('lecture');

/** Where a lecture was ended, whether nothing was done since, and whether Escape asks to end this one. */
const lastLecture = { list: null, isJust: false, isAsked: false };
const ASKED_TWICE = 2000; // milliseconds in which a second Escape ends a lecture

const isToGoOn = () => taught.list.length > 0 && lastLecture.list === taught.list;

/** Notes where a lecture is ended; after its end it begins anew. */
function noteEnded() {
  const isIn = taught.list.length > 0 && !isLesson() && onward() !== undefined;
  Object.assign(lastLecture, { list: isIn ? taught.list : null, at: playlist.at, address: currentAddress(), many: drawnCycle()?.shown ?? shownInTurn(outcomesInTurn()), prepared: { ...prepared }, isJust: isIn });
}

function goOnWithLecture({ at, address, many, prepared: run }) {
  if (currentAddress() !== address) openTest(address);
  if (drive.isOn && !/&at=/.test(address)) goTo(drive.words.length);
  playlist.at = at;
  Object.assign(prepared, run);
  if (drawnCycle()) sheet.cycle.show(many);
  else showInTurn(many);
  drawList();
}

function forgetJustEnded() {
  if (!lastLecture.isJust) return;
  lastLecture.isJust = false;
  drawBar();
}

function nameLecture(button) {
  setAll(button, { 'aria-pressed': String(isLecture()) });
  button.textContent = isLecture() ? 'End the lecture' : isToGoOn() ? 'Go on with the lecture' : taught.list.length > 0 ? 'Start the lecture' : 'Lecture mode';
  return button;
}

const lectureButton = () => nameLecture(html('button', { class: 'quiet', 'data-lecture': '' }));

function putLecture(isOn) {
  if (!isOn && isLecture()) noteEnded();
  putClass(ROOT, 'lecture', isOn);
  if (isOn) Object.assign(lastLecture, { isJust: false, isAsked: false });
  queryAll('[data-lecture]').forEach(nameLecture);
  if (isOn) byId('test-part').open = byId('about').open = false;
  showTestLine(currentCommand());
  if (shown.run || drive.isOn) redraw();
  if (drive.isOn) showDrive();
  if (!drive.isOn && query('.reason, .states-sheet')) showQuestion(inputOf('sweep'));
  sheet.cycle?.show(isOn ? 0 : sheet.cycle.shown); // a lecture begins without arrows
  if (isOn) {
    showInTurn(0);
    notePrepared();
  } else layOutcomes();
  noteVisit();
  keepList();
  drawBar();
  followShown();
  scrollTo(0, 0);
}

/** Escape, which some clickers send, ends a lecture by a second press alone. */
function askToEnd(isAsked = true) {
  Object.assign(lastLecture, { isAsked });
  showFoot();
  if (isAsked) setTimeout(askToEnd, ASKED_TWICE, false);
}

/** Begins or ends the mode: a list at this test, a whole run at its start. Some browsers give no whole screen. */
async function toggleLecture(at = 0) {
  const isOn = !isLecture(), isOnward = isOn && !at && isToGoOn() && !isLesson();
  putLecture(isOn);
  if (isOnward) goOnWithLecture(lastLecture);
  else if (isOn && taught.list.length > 0 && !isLesson()) openListed(Number(at));
  if (isOn && !isOnward && drive.isOn && !isLesson() && drive.count === drive.words.length) goTo(0);
  try {
    if (isOn) await ROOT.requestFullscreen();
    else if (document.fullscreenElement) await document.exitFullscreen();
  } catch {
    // it stays in its window
  }
}

/** Opens a saved list: several tests are a lecture, but no exercises; a reload goes on at its place. */
function openLecture(at = 0) {
  openListed(Math.min(Math.max(0, at), taught.list.length - 1));
  if (taught.list.length <= 1 || isExercise()) return;
  putLecture(true);
  putLed(true);
}

// A clicker has the keys PageUp and PageDown: they step what is shown.

/** A clicker's keys in a lesson: they go through its steps, make its choices, give its answers. */
function clickLesson(isOn) {
  const { at, isDone } = lesson, { do: word, ask: question, right, answers, show: shows } = stepNow();
  if (!isOn) return (at > 0 || lesson.isStrayed) && goBack();
  if (isDone) return goOn();
  if (word !== undefined) return makeChoice(word);
  return question === undefined ? shows !== undefined && showInLesson() : answerLesson(right ?? answers[0]);
}

const SCROLLED = 0.8; // of the window's height, where a clicker has nothing to step
const BELOW = 16; // pixels below a sheet that needn't be in sight

/** The run that a lecture came to, with its test and settings: other choices lead back to it, once. */
const prepared = { test: null, settings: null, text: '', words: [] };

const notePrepared = () => Object.assign(prepared, { beside: drive.beside, caches: cachesView.wanted, hasReason: isWhyNext(), test: drive.isOn ? testNow() : null, settings: JSON.stringify(changedSettings()), text: choicesText(), words: drive.words });

/** Whether a run of the same machine has other choices than the prepared one. */
const isStrayed = ({ test, settings, choices }) => test === prepared.test && settings === prepared.settings && choices !== prepared.text && !beginWith(choices.trim().split(/\s+/), prepared.words);

function backToPrepared() {
  const { words } = prepared, at = words.findIndex((word, each) => word !== drive.words[each]);
  takeBranch({ words, count: at });
  if (!beginWith(drive.words, words)) prepared.test = null; // it can't be taken: a clicker goes on all the same
}

/** What came into sight hides the prepared run's reason. */
function backToView() {
  cachesView.wanted = prepared.caches;
  putBeside(JSON.stringify(prepared.beside));
  prepared.hasReason = isWhyNext(); // else it would go on so for ever
}

/** Whether one would come back to the middle of a run, or to another than the prepared one. */
function isInRun() {
  const run = ownRun.shown ?? ownRun.kept;
  return !isOfEntry() && run !== null && ((!run.isOver && run.count < countChoices(run.choices)) || isStrayed(run));
}

const MOST_IN_TURN = 8; // outcomes that come one by one

/** The parts of a lecture's outcomes, which come in turn: each row, or many at once; then the answer, with what is sought. */
function outcomesInTurn() {
  if (drive.isOn || isLesson() || !query('#states .states-sheet')) return [];
  const all = selector => [...byId('states').querySelectorAll(selector)], rows = all('.states-sheet tbody tr:not(.met)');
  const [first = [], ...others] = rows.length > MOST_IN_TURN ? [rows] : rows.map(row => [row]);
  return [[...first, ...all('.alone-said')], ...others, all('.states-sheet .met, .slide-said > :not(.asked), .never')].filter(part => part.length > 0);
}

/** A lecture asks before its outcomes, and has what is sought last, not first. */
function layOutcomes() {
  const body = query('#states .states-sheet tbody'), place = query('#states .slide-said > .asked'), asked = isLecture() && place ? questionOf(inputOf('sweep')) : '';
  if (place) putText(place, asked === byId('asked-line').textContent ? '' : asked && `${asked} `);
  body?.[isLecture() && body.rows.length <= MOST_IN_TURN ? 'append' : 'prepend'](...body.querySelectorAll('.met'));
}

const shownInTurn = parts => parts.filter(([part]) => !part.matches('.later')).length;

/** Shows so many parts of outcomes, or all. */
function showInTurn(count = Infinity) {
  if (count === 0) layOutcomes();
  outcomesInTurn().forEach((part, at) => part.forEach(each => putClass(each, 'later', at >= count)));
}

const drawnCycle = () => (sheet.cycle?.last > 1 && sheet.cycle.element.isConnected && !drive.isOn ? sheet.cycle : null);

/** Whether why comes after a run: where no entry shows it or drops it, nor caches are shown, of which it tells nothing. */
const isWhyNext = () => drive.isOn && !(isOfEntry() && (isListed('why') || taught.list[playlist.at].noReason)) && firstHistory().proposition !== null && !showsCaches(drivenMachines()) && !isExercise() &&
  query('#commands [value=why]') !== null;

/** What PageDown does next, as the foot says it, and how: a step of what is shown, or what comes after it. */
function onward() {
  const cycle = drawnCycle(), { isOn, count, words } = drive, at = placeNow() + 1, next = toGoThrough()[at];
  if (cycle && cycle.shown < cycle.last) return [cycle.shown < cycle.closed ? `shows arrow ${cycle.shown + 1} of ${cycle.closed}` : 'shows all arrows', () => cycle.move('next')];
  if (isLesson()) return ['the lesson goes on', () => clickLesson(true)];
  const parts = outcomesInTurn(), many = shownInTurn(parts), last = parts.length - 1;
  if (many <= last) return [many === last ? 'shows the answer' : last === 1 ? 'shows the outcomes' : `shows outcome ${many + 1} of ${query('#states .states-sheet tbody').rows.length}`, () => {
    showInTurn(many + 1);
    parts[many][0].scrollIntoView({ block: 'center' });
  }];
  if (isOn && count < words.length) return [`shows step ${count + 1} of ${words.length}`, () => moveDriven('forward')];
  if (isOn && isStrayed({ ...snapshotNow(), choices: drive.words.join(' ') })) return ['back to the prepared run', backToPrepared];
  if (!isOn && !cycle && scrollY + innerHeight < ROOT.scrollHeight - BELOW) return ['scrolls on', () => scrollBy(0, SCROLLED * innerHeight)];
  if (!isOn && isInRun()) return ['the run goes on', backToRun];
  if (isOn && prepared.hasReason && !isWhyNext()) return ['back to the prepared view', backToView];
  if (isWhyNext()) return ['the reason, by arrows', askWhy];
  return next && [saidOfNext(next), () => openListed(at)];
}

function backward() {
  const cycle = drawnCycle();
  if (cycle?.shown > cycle?.least) return cycle.move('back');
  if (isLesson()) return clickLesson(false);
  if (drive.isOn && drive.count > 0) return moveDriven('back');
  if (scrollY > 0 && !drive.isOn) return scrollBy(0, -SCROLLED * innerHeight);
  const many = shownInTurn(outcomesInTurn());
  if (many > 0) return showInTurn(many - 1);
  return drive.isOn || isOfEntry() ? openBefore() : backToRun();
}

/** Goes back to what was seen last of the test before: of a run with a reason after it, its last arrow. */
function openBefore() {
  const at = placeBefore();
  if (!toGoThrough()[at]) return;
  openListed(at, true);
  if (!drive.isOn) return;
  playlist.isFromBehind = isWhyNext();
  if (isWhyNext()) askWhy();
}

function saidOfNext(entry) {
  const now = toGoThrough()[placeNow()], test = plainName(entry), kind = ownNameOf(entry) ? '' : entry.name.split(': ')[1];
  return now && kind && plainName(now) === test ? kind : `next, ${test}`;
}

function footSaid() {
  if (lastLecture.isAsked) return 'Escape again ends the lecture';
  const next = onward();
  return next ? `PageDown: ${next[0]}`.replace(': shows', ' shows') : 'The end: PageUp goes back';
}

const showFoot = () => isLecture() && playlist.where !== footSaid() && drawBar();

/** While keys lead no pointer is seen, nor what it is at, until it moves. */
const putLed = isLed => putClass(ROOT, 'led', isLed);

function click(isOn) {
  if (focused().matches('.core-buttons button, #driving *, #way-back *')) focused().blur(); // no ring, and no buttons in sight
  if (isOn) onward()?.[1]();
  else backward();
  showFoot();
}

// Without a list a lecture goes through the tests of this visit, each with its last run, and then those with which the library begins.

const visits = new Map();

/** Notes the test that is shown, but none that is being written. */
function noteVisit() {
  if (drive.isOn && !isLesson() && !isExercise() && focused() !== byId('test')) visits.set(testName(), { address: currentAddress() });
}

function offered() {
  const all = new Map([...visits, ...STARTS.map(file => [nameIn(LIBRARY.find(each => each.file === file)?.text), { file }]).filter(([test]) => test && !visits.has(test))]);
  return [...all].map(([test, entry]) => ({ test, name: TITLES[test] ?? test, ...entry }));
}

const toGoThrough = () => (taught.list.length > 0 || !isLecture() ? taught.list : offered());
const placeNow = () => (taught.list.length > 0 ? playlist.at : offered().findIndex(({ test }) => test === testName()));
const placeBefore = () => placeNow() - (taught.list.length === 0 || isOfEntry(false) ? 1 : 0);

function openOffered({ file, address }, isAtEnd) {
  if (file) takeFromLibrary(file);
  else openTest(address);
  notePrepared();
  if (drive.isOn) goTo(isAtEnd ? drive.words.length : 0);
  scrollTo(0, 0);
}

/** A clicker's keys darken the screen; then any key brings it back, and does nothing else. */
on(document, 'keydown', event => {
  const isAsked = isLecture() && /^[b.]$/i.test(event.key) && byId('letter-keys').checked && !event.target.matches('textarea, input');
  if (!isAsked && !ROOT.classList.contains('dark-hall')) return;
  ROOT.classList.toggle('dark-hall');
  event.preventDefault();
  event.stopImmediatePropagation();
}, true);
on(document, 'keydown', event => {
  if (lastLecture.isJust && event.key === 'PageDown') {
    event.preventDefault();
    return toggleLecture();
  }
  if (event.key !== 'Escape') forgetJustEnded();
  if (!isLecture() || !['PageDown', 'PageUp'].includes(event.key) || event.target.matches('textarea')) return;
  event.preventDefault();
  byId('test-part').open = false; // what is edited is out of the hall's sight again
  click(event.key === 'PageDown');
});
const onEach = (kinds, act) => kinds.split(' ').forEach(kind => on(document, kind, act, { passive: true }));
onEach('wheel click input', forgetJustEnded);
onEach('scroll click', showFoot);
onEach('keydown wheel pointerdown pointermove', ({ type }) => putLed(type === 'keydown' && isLecture()));
on(document, 'fullscreenchange', () => {
  if (!document.fullscreenElement && isLecture()) askToEnd();
});
on(document, 'click', ({ target, detail }) => {
  if (target.matches('[data-onward]')) click(true);
  if (!target.matches('[data-lecture], [data-start]')) return;
  toggleLecture(target.dataset.start);
  putLed(isLecture());
  if (detail > 0) target.blur(); // so no key of a clicker presses it again
});
