'use strict';

// What is shown of the machines that are driven: panels, picture, sentence, and at the end the condition.

/** Shows everything after the choices that are made. */
function showDrive() {
  const history = firstHistory(), { count } = drive, isPlain = !putCaches();
  drawn.panels.forEach((panel, at) => panel.show(drive.histories[at], count, isPlain));
  markKeyed(false);
  putClass(byId('run'), 'fresh', count === 0);
  showPicture();
  const step = history.steps[count - 1];
  const said = step ? saidOfStep(step) : count === 0 ? startSentence(history) : 'The first machine\'s test has ended.';
  const shared = isPlain || lesson.told ? '' : sharedLine(history, count);
  putExplained(byId('sentence'), lesson.told ? '' : isLecture() ? said : said + shared);
  if (isLecture() && shared) byId('sentence').prepend(html('strong', {}, shared), ' ');
  byId('count').textContent = `${choicesSaid(count)} made`;
  showMoves();
  showBranches();
  markDifferences();
  showPrograms();
  markWanted();
  showEnd(history);
  showTask(history, count, shown.run);
  keepAddressSoon();
  showFoot();
  keepInSight();
}

/** What a hall sees in columns, and what it hears in its place. */
const SHORTER = [[/(buffer|stored \S+): (each .* one|memory has seen it)\./, '$1.'], [/ A(n? \w+): [^.]*/g, ' a$1'], [/; memory keeps the old words?/g, ''], [/ of [\w, ]+ became/g, ' became'],
  [/ went on the bus\. (?=P)/g, ': '], [/(P\d+) sent its copy\. \1's copy/g, '$1 sent its copy, which']];

/** A step's sentences, after its code but in a lecture. Of machines abreast that differ: what all did, but for what columns show, and what each did; in a lecture in short, and each other than the first. */
function saidOfStep({ choice }) {
  const { panels } = drawn, first = panels[0].sentences, code = isLecture() ? '' : `${choice}: `, isOfAll = each => panels.every(({ sentences }) => sentences.includes(each));
  const own = ({ sentences }) => sentences.filter(each => !isOfAll(each)).join(' '), ways = [...new Set(panels.map(own))];
  if (panels.length < 3 || (ways.length === 1 && code)) return code + first.join(' ');
  const under = (code ? ways : ways.slice(1)).filter(Boolean).map(said => `Under ${listed(panels.filter(panel => own(panel) === said).map(({ history }) => history.options.protocol.toUpperCase()))}: ${said}`);
  const all = first.filter((each, at) => (code ? isOfAll(each) && !/^A miss|on the bus\.$/.test(each) : at === 0 || (isOfAll(each) && !/^A/.test(each))));
  return code + (code ? [] : SHORTER).reduce((said, [long, short]) => said.replace(long, short), [...all, ...under].join(' '));
}

/** Scrolls to what the last choice changed. It has the browser lay the page out, so it comes last. */
function keepInSight() {
  scrollPicture();
  drawn.passes.keepInSight();
  for (const panel of drawn.panels) panel.keepInSight();
}

/** Whether what one steps by stands at the lower edge of the window, as it does on a narrow one. */
const isStepperBelow = () => matchMedia('(max-width: 560px)').matches;

const choicesSaid = count => `${count} ${count === 1 ? 'choice' : 'choices'}`;

/** For who listens, what is asked, where the headline is an entry's own name. */
const saidInHall = () => (isOfEntry(false) && ownNameOf(taught.list[playlist.at]) ? ` ${proposedQuestion(drive.test)}` : '');

/** What is said at the start: that choices are known, or how many a run needs. */
function startSentence(history) {
  const known = drive.words.length, seed = /^\s*seed\s+(\d+)\s+\d+\s*$/.exec(choicesText())?.[1], by = seed === undefined ? '' : `, drawn by chance from seed ${seed}`;
  const whose = drive.words === fromExample.words ? `This example comes with ${choicesSaid(known)}` : known === 1 ? 'One choice is known' : `${known} choices are known`;
  if (known > 0) return `The machine at its start.${isLecture() ? saidInHall() : ` ${whose}${by}: Forward makes ${known === 1 ? 'it' : 'them'}.`}`;
  return `Press step: the core does its next instruction. Press drain: its oldest store goes to memory.${isStepperBelow() ? '' : leastSentence(history)}`;
}

function showMoves() {
  const isFirst = drive.count === 0, isLast = drive.count === drive.words.length;
  for (const button of queryAll('#stepper [data-move]')) button.disabled = ['first', 'back'].includes(button.dataset.move) ? isFirst : isLast;
  for (const id of ['play', 'draw-seed']) byId(id).disabled = isAtEnd(drive);
}

/** Marks the core on which keys act, while a key has named it and the choice is to come (`isAsked`). */
function markKeyed(isAsked) {
  putClass(ROOT, 'keyed', isAsked);
  for (const { panels } of drawn.panels) panels.forEach(({ element }, core) => putClass(element, 'chosen', core === drive.core));
}

/** How a lecture's picture grows: at least, at most, in which part of the window's height (`higher` where nothing passes, in a low window and in others),
 * and how wide its lanes must be. */
const LECTURED = { least: 1, most: 2.2, high: 0.5, higher: [0.54, 0.58], lanes: 492, lane: 122 };
const SCROLLBAR = 17; // pixels, at most
const mayPass = program => /MOV \[((?!MFENCE|LOCK|XCHG).)*MOV \w+,\[/.test(program); // a load after a store, with no fence between
const lecturedPart = programs => (programs.some(mayPass) ? LECTURED.high : LECTURED.higher[innerHeight < 1000 ? 0 : 1]);
const frameMost = () => (isLecture() ? lecturedPart(firstHistory().programs) : 0.68) / drawn.picture.zoom; // of the window's height, as the style has it

/** By how much the picture is larger than it is drawn, as it is in a lecture and in a large window. */
const zoomOfPicture = () => Number(getComputedStyle(byId('frame')).zoom) || 1;

/** How wide the card is inside, on which the picture lies. */
function widthOfCard() {
  const card = byId('frame').parentElement, { paddingLeft, paddingRight } = getComputedStyle(card);
  return card.clientWidth - parseFloat(paddingLeft) - parseFloat(paddingRight);
}

/** In a lecture the picture is as large as its rows and its lanes have room. */
function growPicture({ cores, programs }) {
  const { least, most, lanes, lane } = LECTURED, high = lecturedPart(programs), rows = HEAD + mostRows(programs) * ROW + STRIP;
  const room = Math.min(most, high * innerHeight / rows, widthOfCard() / (GUTTER + 2 + SCROLLBAR + Math.max(lanes, cores * lane)));
  for (const [name, value] of [['zoom', Math.max(least, room).toFixed(2)], ['part', `${100 * high}vh`]]) byId('run').style.setProperty(`--${name}`, value);
}

function makePicture() {
  if (isLecture()) growPicture(firstHistory());
  const room = widthOfCard() / zoomOfPicture() - SCROLLBAR;
  const picture = drawn.picture = Object.assign(new GrowingPicture(firstHistory(), room), { room, zoom: zoomOfPicture() });
  shown.layout = picture.layout;
  const { style } = byId('frame').parentElement, zoom = zoomOfPicture();
  for (const [name, value] of [['large', zoom], ['row', `${picture.layout.row * zoom}px`], ['rows', mostRows(firstHistory().programs)]]) style.setProperty(`--${name}`, value);
  putClass(byId('frame'), 'whole', picture.layout.width <= room);
  byId('frame').style.containIntrinsicWidth = `${picture.layout.width}px`;
  fill(byId('frame'), picture.element);
  fill(byId('names'), drawNames(firstHistory(), picture.layout));
}

function showPicture() {
  if (drawn.picture === null || drawn.picture.isTooNarrowFor(firstHistory())) makePicture();
  drawn.picture.show(firstHistory(), drive.count);
  const isOver = firstHistory().hasEnded(drive.count), isEmpty = drawn.picture.rows.length === 0, waiting = firstHistory().machineAfter(drive.count).cores.flatMap(({ buffer }) => buffer).length || '';
  putClass(byId('frame').parentElement, 'ended', isOver);
  putText(byId('order-title'), isOver ? 'Memory order' : isEmpty ? `Memory order: nothing yet${waiting && `, ${waiting} waiting`}` : 'Memory order so far');
  const { layout: { top }, extent, bottom } = drawn.picture, most = frameMost() * innerHeight;
  const height = isLecture() ? Math.max(firstHistory().cores > 2 ? 0 : most - 10, top(mostRows(firstHistory().programs)) + STRIP - HEAD) : bottom - HEAD;
  extent.style.minHeight = isLecture() ? `${Math.floor(Math.min(height, most))}px` : '';
  putClass(byId('frame'), 'full', height > most);
  byId('frame').tabIndex = height > most || !byId('frame').matches('.whole') ? 0 : -1; // where it scrolls
}

/** Brings the last row into sight, and the lane of the core that acted. */
function scrollPicture() {
  const { rows, layout, room } = drawn.picture, step = firstHistory().steps[drive.count - 1];
  byId('frame').scrollTop = rows.length * layout.row;
  if (layout.width > room && step) byId('frame').scrollLeft = layout.left(coreOfChoice(step.choice)) - (room - layout.lane) / 2;
}

/** Places what goes by how far the picture is scrolled. */
function placeDriven() {
  const { scrollLeft, scrollTop } = byId('frame');
  byId('names').scrollLeft = scrollLeft;
  drawn.picture?.hideAbove(scrollTop);
}

// The end.

/** The run that the program reports of the choices made, once the test has ended; else null. */
function runAtEnd(history) {
  if (drive.count < history.steps.length || !history.hasEnded(drive.count)) return null;
  const { status, text } = asked({ ...history.options, command: 'run', json: true }, driveInput());
  return status === GOOD ? text.trim() : null;
}

/** Tells the condition; of a test that has ended also its truth, and what the run left. */
function showEnd(history) {
  const line = runAtEnd(history), run = line && readLine(line);
  Object.assign(shown, { run, line: line ?? '' });
  const verdict = isLecture() && cacheTask(drive.test) ? '' : run ? (isLecture() && endSentence(history, run)) || verdictSentence(run, history.proposition) : conditionSentence(history);
  putExplained(byId('verdict'), verdict);
  if (run && !isLecture()) tellInWords(byId('verdict'), history, run);
  putClass(byId('verdict'), 'yes', isLecture() && verdict.startsWith('Yes: '));
  showPasses(history);
  byId('at-end').hidden = run === null;
  byId('comparison').hidden = run === null;
  query('#saves [data-save=line]').disabled = run === null;
  if (run === null) return;
  fill(byId('left'), ...finalTables(run, drawn.panels[0].panels.map(({ used }) => used), drive.histories.length > 2 ? `, ${history.options.protocol.toUpperCase()}` : ''));
  if (byId('order-part').open) showOrder();
  compareNow();
}

/** Says the condition in words, with what is written as their meaning. */
function tellInWords(element, { proposition, programs }, { condition }) {
  const wanted = condition && wantedWords(proposition);
  if (!wanted) return;
  const [said] = element.textContent.split('Condition: '), words = loadsSentence(wanted, programs) || wantedSentence(wanted), isShown = condition.holds && condition.kind !== 'forall';
  MEANINGS.written = `Written ${condition.kind} (${proposition}).`;
  fill(element, isShown ? said.replace(/\. $/, ': ') : said, withMeaning({ tabindex: -1 }, 'written', isShown ? words : words.replace(/^b/, 'B')), isShown ? '.' : `: ${condition.holds}.`);
}

/** Lists what loads passed so far. */
function showPasses(history) {
  drawn.passes ??= new PassList(byId('passes'));
  drawn.passes.show(history.order, history.momentAfter(drive.count).rows, history.hasEnded(drive.count));
}

/** The condition before the test has ended: in words, where it has some, and as it is written; in a lecture in words alone. */
function conditionSentence(history) {
  const { proposition, programs } = history;
  if (proposition === null) return 'Condition: the test has none.';
  const wanted = wantedWords(proposition), inWords = wanted && (loadsSentence(wanted, programs) || wantedSentence(wanted));
  if (isLecture() && wanted !== null) return isTrueAfter(history, drive.count) ? reachedSentence(wanted, programs) : `Condition: ${inWords}.`;
  return `Condition: ${wanted === null ? '' : `${inWords}, written `}${proposition}.`;
}

/** That a run got there. */
function reachedSentence(wanted, programs) {
  const read = loadsSentence(wanted, programs);
  return read ? `✓ ${read.replace(/^b/, 'B').replace(' read ', ' have read ')}.` : `Yes: this run ends with ${wantedSentence(wanted)}.`;
}

/** Whether a run ended as is asked, in words alone; null where the condition has none. */
function endSentence({ proposition, programs }, { condition }) {
  const wanted = condition && wantedWords(proposition), isSo = wanted && missedPlaces(firstHistory(), drive.count, wanted).length === 0;
  const read = wanted && loadsSentence(wanted, programs);
  return wanted && (isSo ? reachedSentence(wanted, programs) : `This run ${read ? `isn't one in which ${read}` : `doesn't end with ${wantedSentence(wanted)}`}. It tells nothing about other runs.`);
}

const showOrder = () => fill(byId('order'), ...(shown.run ? [orderTable(shown.run)] : []));

/** The history of an input; where it spells more choices than steps are told for, that of the first ones, if the run ends with them. */
function historyWithin(options, input) {
  const told = historyOf(options, input);
  if (!told.tooMany) return told;
  const { test, rest } = partsOf(input);
  const { history } = historyOf(options, `${test}${DIVIDING_LINE}\n${firstChoices(rest, MOST_STEPS)}\n`);
  return history?.hasEnded(history.steps.length) ? { history } : told;
}

/** Where one was in the middle of a run: after how many choices, and which; null at a run's end. It stays while a text is refused. */
let placeInRun = null;

/** Does what makes the machine another, and stays after as many choices, where these are the same. */
function keepPosition(act) {
  const { isOn, count, words } = drive;
  if (isOn) placeInRun = count < words.length ? words.slice(0, count) : null;
  act();
  if (placeInRun !== null && drive.isOn && beginWith(drive.words, placeInRun)) goTo(placeInRun.length);
}

/** The numbers of the steps that changed nothing. */
const stallsOf = ({ steps }) => steps.flatMap(({ outcome }, at) => (outcome === 'stalled' ? [at] : []));

/** After an edit of the test: where a choice does nothing any more, the run is shown before it, and says what was left out. */
function stayBeforeStall(stalledBefore) {
  const at = stallsOf(firstHistory()).find(each => !stalledBefore.includes(each)), text = choicesText(), known = countChoices(text);
  if (at !== undefined && at < drive.count) {
    goTo(at);
    sayOfDriving(`The test is another now: ${at} of your ${known} choices still do the same, and ${drive.words[at]} would do nothing. ` +
      `Left out: ${drive.words.slice(at).join(' ')}. Forward makes these choices anyway.`);
  } else if (!text.includes('seed') && known > drive.words.length) {
    sayOfDriving(`The test is another now, and ends after ${drive.words.length} of your ${known} choices. ${byId('sentence').textContent}`);
  }
}

/** Shows a run as a machine that is driven, `isAtStart` before its choices and else after them. Answers whether it can be. */
function showDriven(options, input, isAtStart) {
  const { history, tooMany } = bench.tracing ? historyWithin(options, input) : {};
  byId('no-steps').hidden = !tooMany;
  if (!history) return false;
  byId('name').textContent = `Test ${testName()}`;
  byId('run').hidden = false;
  putDriving(true);
  beginDrive(history, { test: inputOf('sweep'), given: input }, isAtStart ? 0 : history.steps.length);
  return true;
}

/** Puts the parts for driving in the place of those for a run that has ended, or back. */
function putDriving(isDriving) {
  if (putClass(byId('run'), 'driving', isDriving) === byId('legend').open) byId('legend').open = !isDriving;
  for (const part of queryAll('[data-for=drive]')) part.hidden = !isDriving;
  for (const part of queryAll('[data-for=run]')) part.hidden = isDriving;
  for (const id of ['passed-title', 'frame']) byId(id).tabIndex = isDriving ? -1 : 0; // arrows lead there
  if (!isDriving && drive.isOn) endDrive();
}
