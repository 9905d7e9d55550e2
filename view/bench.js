'use strict';

// The bench: what is written goes to the module, and its answer is shown.

/** The module and what it was made of, a long task while it runs, and the answer that is shown (null while a machine is driven on from it).
 * `tracing`: what the module tells of steps. `told`: what the shown sheet was asked. `took`: milliseconds of the last `why`. `again`: the timer of an
 * answer that comes by itself. `last`: the last long command. */
const bench = { tso: null, bytes: null, task: null, answer: null, tracing: null, hasLargerSet: false, told: null, took: Infinity, again: null, last: 'outcomes' };

const LONG = ['outcomes', 'sweep', 'counts', 'why'];

/** The test's name, as its first line has it. */
const testName = () => /^X86[ \t]+(.*)/.exec(testNow())?.[1].trim() ?? 'test';

/** From so many choices on a run is made in a worker. */
const LONG_RUN = 10000;

/** How many choices a text spells, where it is well formed. */
function countChoices(text) {
  const drawn = [...text.matchAll(/\bseed\s+\d+\s+(\d+)/g)].reduce((sum, [, length]) => sum + Number(length), 0);
  return drawn + (text.match(/\S+/g)?.length ?? 0);
}

/** The same choices, but no more than so many: a seed's last number is made smaller. */
function firstChoices(text, most) {
  const kept = [];
  let left = most;
  for (const [word, number, length] of text.matchAll(/\bseed\s+(\d+)\s+(\d+)|\S+/g)) {
    if (left === 0) break;
    const taken = length === undefined ? 1 : Math.min(left, Number(length));
    kept.push(length === undefined ? word : `seed ${number} ${taken}`);
    left -= taken;
  }
  return kept.join(' ');
}

/** What is said where nothing is written: no line is at fault. */
const NO_TEST = { status: REFUSED, text: '', hint: 'There is no test yet: write one, or take one of the examples.' };

/** Answers what is written: of a long command only whether the test is refused. */
function answerNow(isAtStart = false) {
  if (!bench.tso) return;
  stopTask();
  const command = currentCommand(), { wrong, options } = showAsked(command);
  if (wrong) byId('test-part').open = true;
  if (wrong) showSaid({ text: '', hint: '' }, wrong);
  else if (command !== 'tables' && testNow().trim() === '') showAnswer(NO_TEST);
  else if (LONG.includes(command)) showRefusalAlone(command);
  else if (command === 'run' && countChoices(choicesText()) > LONG_RUN) begin();
  else if (command === 'run') answerRun(options, isAtStart === true);
  else showOpenAnswer(asked(options, inputOf(command)));
}

/** What was asked when a notice was put that something is saved or copied. */
let noticed = '';

const NOTICES = '#words-copied, #copied, #report-copied, .page-saved';

/** Of some places the one in sight that is nearest to the focus. */
const nearest = (places, part = focused()) => part
  && ([...part.querySelectorAll(places)].find(each => each.checkVisibility()) ?? nearest(places, part.parentElement));

/** Says what was saved or copied last, at the nearest of these places alone, and answers it. */
function sayDone(places, said) {
  const place = nearest(places) ?? query(places);
  if (place.contains(focused())) place.parentElement.querySelector('#copy-link, [data-copy-link]')?.focus(); // the button in it goes
  for (const notice of queryAll(NOTICES)) putText(notice, notice === place ? said : '');
  return place;
}

/** Copies a text, and says so at the nearest of these places, which it answers; or what one can do, where it can't. */
async function copyText(text, places, said, otherwise) {
  try {
    await navigator.clipboard.writeText(text);
    return sayDone(places, said);
  } catch {
    sayDone(places, `This browser doesn't let the page copy: ${otherwise}.`);
    return null;
  }
}

/** Takes notices away that belong to another test or command. */
function forgetNotices(command) {
  const asks = `${command} ${testNow()}`;
  if (asks === noticed) return;
  noticed = asks;
  sayDone(NOTICES, '');
}

/** Shows the words on the command line that ask the same. */
function showWordsLine(command) {
  const words = commandLine(command).split(' ');
  fill(byId('words-line'), ...words.flatMap(word => [html('span', 'unbroken', word), ' ']));
}

/** Shows two questions under the test: in the place of one that is asked stands the main button. */
function showAsks(command) {
  byId('asks-here').hidden = !ASKED_BY_BUTTONS.includes(command);
  for (const button of byId('asks-here').children) button.hidden = command !== 'run' && [command, undefined].includes(button.dataset.ask);
  putClass(byId('begin'), 'last', command === 'why');
}

/** Shows what is asked. Answers the settings as they are read. */
function showAsked(command) {
  const settings = readSettings(command);
  drawShare();
  keepAddressSoon();
  showTestLine(command);
  document.title = `${taught.name || testName()} – Litmus tests under TSO`;
  showWordsLine(command);
  putText(byId('begin-said'), '');
  putText(byId('enter-asks'), `${Object.hasOwn(BEGINS, command) ? `Ctrl+Enter: ${BEGINS[command]} · ` : ''}Esc leaves the text`);
  forgetNotices(command);
  showLeft();
  showExercise();
  showAsks(command);
  byId('begin').disabled = settings.wrong !== undefined;
  return settings;
}

/** The module's answer; where it trapped, a sentence in its place. */
function asked(options, input) {
  try {
    const answer = bench.tso.answer(options, input);
    return (answer.status !== REFUSED && refusalOfBare(input)) || answer;
  } catch (fault) {
    return { status: null, text: '', hint: trapSentence(fault) };
  }
}

const trapSentence = fault => `The module stopped before it gave an answer (${fault.message}). The page discards this instance; a new one gives the next answer.`;

function answerRun(options, isAtStart) {
  const input = inputOf('run'), answer = asked(options, input), wasDrawn = shown.run !== null || drive.isOn;
  const isRun = answer.status === GOOD || answer.status === UNENDED;
  showAnswer(answer);
  if (isRun && showDriven(options, input, isAtStart)) {
    if (!wasDrawn || isAtStart) byId('report-part').open = false;
    return isAtStart ? showSaid({ hint: '' }, '') : undefined;
  }
  const isDrawn = answer.status === GOOD;
  if (isDrawn !== wasDrawn) byId('report-part').open = !isDrawn; // the picture says the same
  if (isDrawn) showLine(asked({ ...options, json: true }, input).text.trim());
}

function showLine(line) {
  showRun(readLine(line), line);
  compareNow();
}

/** The report of what is written now. */
function reportNow() {
  if (bench.answer === null) bench.answer = asked(readSettings('run').options, inputOf('run'));
  return bench.answer;
}

/** Shows the answer in the form that is wanted, of a driven run anew, and no old one during a search. */
function showReport() {
  if (bench.task && !bench.task.isAside) return putText(byId('report'), 'Searching …');
  if (currentCommand() === 'run' && bench.answer === null) putFormats({ printed: reportNow().text });
  return showFormat();
}

/** Shows an answer in the place of a run, and marks what is refused. */
function showAnswer(answer) {
  Object.assign(bench, { answer, told: null });
  const isText = answer.status !== REFUSED && answer.text !== '';
  hideRun();
  byId('brief').hidden = true;
  fill(byId('states'));
  showWayBack();
  markRefusal(answer);
  showLeft();
  const noted = answer.status === REFUSED || currentCommand() === 'tables' ? '' : noticeOf(inputOf('sweep'));
  queryAll('.noticed').forEach((place, at) => putText(place, at > 0 ? noted.replace(/^Written: .*?(?=Note|$)/, '') : noted));
  putText(byId('of-c'), OF_C);
  byId('of-c').hidden = answer.status === REFUSED || currentCommand() === 'tables' || !isFromC(testNow());
  if (answer.status === REFUSED) byId('test-part').open = true;
  showSaid(answer, isText ? '' : answer.text.trim());
  byId('report-part').hidden = !isText;
  byId('report').textContent = isText ? answer.text : '';
  putFormats(isText ? { printed: answer.text } : {});
  for (const button of queryAll('[data-save=report]')) button.disabled = !isText;
}

/** Shows an answer that has no picture. */
function showOpenAnswer(answer) {
  showAnswer(answer);
  showJudged(currentCommand(), answer);
  byId('report-part').open = true;
}

const PLAIN_WORDS = {
  [Tso.STATUS.nothingAsked]: 'These settings are outside their limits.',
  [Tso.STATUS.noMemory]: 'The browser refused the memory that this needs.',
};

function showSaid({ status, hint }, said) {
  putClass(byId('told'), 'mild', status === UNENDED);
  byId('said').textContent = PLAIN_WORDS[status] ?? said;
  byId('hint').textContent = pageHint(hint).replace(/^hint: ./gm, all => all.at(-1).toUpperCase());
}

/** What an answer says in the words of litmus tests, folded. */
const inTerms = text => html('details', 'terms small', html('summary', {}, 'In litmus terms'), html('p', {}, text));

/** The heading of an answer's sheet, to which the focus goes. */
const answerTitle = text => html('h2', { class: 'answer-title', tabindex: -1 }, text);

/** Whether what works, or has ended, was begun beside the test. */
const isAskedBeside = () => byId('test-part').open && byId('test-part').contains(working.asker);

/** Says an answer's first sentence beside the test; answers whether it did. */
function saidInBrief() {
  const said = query('#states [role=status] strong')?.textContent ?? '';
  const isBeside = isAskedBeside() && (working.asker === byId('test') || byId('commands').offsetTop < byId('told').offsetTop);
  byId('brief').hidden = !isBeside || said === '';
  putText(byId('brief-said'), byId('brief').hidden ? '' : said);
  return !byId('brief').hidden;
}

const HIGH = 0.25; // of the window's height: what begins there needs no scrolling
const TOO_LOW = 0.7; // what begins below it does

/** Puts the focus on the answer, in sight. A lesson goes on from it with Next. */
function focusAnswer() {
  const title = query('#states .answer-title') ?? byId('report');
  const top = isLesson() ? byId('lesson') : byId('way-back').hidden ? title : byId('way-back');
  if (isLecture() || boxOf(top).top + scrollY < HIGH * innerHeight) scrollTo(0, 0);
  else top.scrollIntoView({ block: 'start' });
  const said = title === byId('report') ? null : title.parentElement.querySelector('[role=status]');
  if (said) {
    said.id = 'answer-said'; // it is read with the heading
    title.setAttribute('aria-describedby', said.id);
  }
  if (!isLesson()) focusOn(title);
  else focusStep();
}

/** Folds the JSON of an answer that a sheet shows, unless somebody reads it. */
function foldReport(answer) {
  const isRead = byId('report-part').open && byId('as-json').checked;
  putFormats({ json: answer.text });
  byId('report-part').open = isRead;
  if (isRead) showFormat();
}

/** Offers the way back to the run, while an answer is shown in its place. */
function showWayBack() {
  byId('way-back').hidden = currentCommand() === 'run';
  placeList();
  for (const button of queryAll('#way-back [data-ask]')) button.hidden = button.dataset.ask === currentCommand();
}

/** Shows the run again, as it was before the answer, with the machine in sight: the test closes, as it is written by now. */
function backToRun(isByKey) {
  byId('test-part').open = false;
  if (ownRun.kept !== null) backToShownRun();
  else {
    putCommand('run');
    answerNow();
  }
  if (isByKey || focused() === document.body) focusMachine(); // what had the focus is gone, or out of sight
  const { top } = boxOf(byId('machines'));
  if (!isLecture() && (top < byId('stepper').offsetHeight || top > TOO_LOW * innerHeight)) byId('run').scrollIntoView({ block: 'start' });
}

/** Asks a long command about the test, by one click from its run. */
function ask(command, how = {}) {
  keepOwnRun();
  foldList();
  putCommand(command);
  begin(how);
}

const findOutcomes = () => ask('outcomes');

/** Asks `check` or `witness` about the order of the run that is shown. */
function judgeOrder(command) {
  keepOwnRun();
  const { text } = reportNow();
  byId('given').value = text.slice(Math.max(0, text.search(/^Order$/m)));
  byId('test-part').open = true;
  putCommand(command);
  answerNow();
  focusAnswer();
}

/** Whether a run that was found ends in store buffers of another depth too, and no choice stalls. */
function hasRoom(choices, depth) {
  const { options } = readSettings('run'), text = `${inputOf('sweep')}${DIVIDING_LINE}\n${choices}\n`;
  if (options === undefined || countChoices(choices) > MOST_STEPS) return false;
  const { history } = historyOf({ ...options, bus: 'atomic', depth }, text);
  return history !== undefined && history.hasEnded(history.steps.length) && history.steps.every(({ outcome }) => outcome !== 'stalled');
}

/** Puts the focus on the machine's heading. */
const focusMachine = () => focusOn(query('#machines h3'));

/** Runs choices that were found, in one's own store buffers where there is room. */
function loadChoices(choices, found) {
  keepOwnRun();
  const before = JSON.parse(ownRun.kept.settings).find(([name]) => name === 'depth')?.[1] ?? SET_AT_FIRST.depth;
  const depth = Number(found) > 0 && hasRoom(choices, Number(before)) ? before : found;
  lendSetting('depth', depth, before);
  settingOf('bus').value = 'atomic';
  putChoices(choices + '\n');
  putCommand('run');
  ownRun.taken = choices.trim();
  const isOther = String(before) !== String(depth);
  showOwnRun(`This is a run of the answer${isOther ? `, with ${plainMachineName({ depth: Number(depth) })} (yours have ${before})` : ''}.`);
  const sheet = [...byId('states').children]; // it stays beside the run
  answerNow();
  fill(byId('states'), ...sheet);
  markShownState(choices);
  seeRun();
  focusMachine();
}

/** Loads a text of the list: all at one depth, but what needs more. */
function loadText(file) {
  const entry = LIBRARY.find(entry => entry.file === file);
  const isOrder = putInput(entry.text);
  endLesson();
  forgetOwnRun();
  lent.clear();
  for (const name of ['depth', 'words']) lendSetting(name, Math.max(SET_AT_FIRST[name], Number(entry[name] ?? 0)), SET_AT_FIRST[name]);
  beginAddress();
  putCommand(isOrder ? 'check' : 'run');
  answerNow(true);
}

/** What a module tells of steps, tried on the first test. */
function tracingOf(tso) {
  const tells = command => tried(() => {
    const { text } = tso.answer({ command, json: true }, EXAMPLES[FIRST_TEXT]);
    return command === 'step' ? 'outcome' in readStep(text) : readTrace(text).steps.length > 0;
  });
  return !tells('trace') ? null : tells('step') ? 'step' : 'trace';
}

/** Makes the machine, and opens the list of texts. Throws where the browser can't. */
async function makeBench() {
  [bench.bytes] = await Promise.all([unpacked(MODULE.packed), openLibrary()]);
  const tso = await Tso.of(bench.bytes);
  bench.tracing = tracingOf(tso);
  bench.tso = tso;
  bench.hasLargerSet = hasLargerSet(tso);
  for (const command of ['why', 'counts']) {
    if (!answersTo(tso, command)) for (const part of queryAll(`[data-for=${command}]`)) part.remove();
  }
  const { version, tools, sources } = MODULE;
  byId('version').textContent = `Version ${version} of the machine, proved and made by ${tools}. Digest of its sources: ${sources.slice(0, 16)}.`;
}
