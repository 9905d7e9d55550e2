'use strict';

// Long commands: a worker answers them, and until then what is shown stays.

const QUICK = 1500; // milliseconds: an answer to `why` that took no longer comes again by itself after an edit
const TYPING = 300; // milliseconds without an edit
const QUICK_STATES = 20000; // outcomes come by themselves where these are enough: a third of a second

const NOTHING = { status: 0, text: '', hint: '' };

/** Says what begins a command, in the place of its answer and beside the button. */
function sayToBegin(command, why = '') {
  showAnswer(NOTHING);
  fill(byId('states'), html('p', 'faint to-begin', `Press “${BEGINS[command]}”.`));
  putText(byId('begin-said'), why);
}

/** Says what is wrong with the test of a long command, or nothing. Outcomes of few states come by themselves, and a `why` that was quick; until then
 * the last answer stays. */
function showRefusalAlone(command) {
  const answer = asked({ command: 'run' }, inputOf(command)), isRefused = answer.status === REFUSED;
  const isLive = !isRefused && (command === 'why' ? bench.took < QUICK : command === 'outcomes' && canAsk());
  const isAnswered = byId('states').childElementCount > 0 && bench.answer?.text.startsWith('{');
  clearTimeout(bench.again);
  if (isLive) bench.again = setTimeout(() => currentCommand() === command && begin({ isAgain: true, most: QUICK_STATES }), TYPING);
  if (isRefused) showAnswer(answer);
  else if (!isLive) sayToBegin(command);
  else if (!isAnswered) showAnswer(NOTHING);
}

/** What Ctrl and Enter ask. */
const askedNext = () => (LONG.includes(currentCommand()) ? currentCommand() : bench.last);

function stopTask() {
  bench.task?.stop();
  bench.task = null;
  endWorking();
}

/** Begins a long command in a worker. One that comes by itself (`isAgain`) is told beside the test, and over `most` states wait until asked for. An
 * answer that is there is gone to, and any where `goesThere`. */
async function begin({ isAgain, goesThere, most = Infinity } = {}) {
  const command = currentCommand(), { options } = showAsked(command), asks = JSON.stringify([options, inputOf(command)]);
  if (isAgain !== true && bench.told === asks) return focusAnswer();
  if (LONG.includes(command)) bench.last = command;
  stopTask();
  clearTimeout(bench.again);
  const bare = refusalOfBare(inputOf('sweep'));
  if (bare) return showAnswer(bare);
  byId('about').open = byId('keys').open = false;
  const isCut = most < options.states, began = Date.now(), input = inputOf(command), task = bench.task = beginTask(bench.bytes, questionsOf(command, isCut ? { ...options, states: most } : options), searchedInput(command), tellProgress);
  if (command === 'run') showAnswer(NOTHING);
  beginWorking();
  if (isAgain === true) working.asker = byId('test');
  try {
    const answers = await task.answers;
    if (bench.task !== task) return;
    stopTask();
    if (command === 'why') bench.took = Date.now() - began;
    if (isCut && answers[0].status === UNENDED) return sayToBegin(command, 'Many states: press it to search.');
    drawLong(command, answers, options, input);
    bench.told = command === 'run' ? null : asks;
    if (bench.answer.status === REFUSED) focusRefusal();
    else if (command !== 'run' && (goesThere || !saidInBrief())) focusAnswer();
  } catch (fault) {
    if (bench.task !== task) return;
    stopTask();
    showAnswer({ status: null, text: '', hint: trapSentence(fault) });
  }
}

/** Shows the answer to a long command; as text, where its drawing fails. */
function drawLong(command, answers, options, input) {
  try {
    showLong(command, answers, options, input);
  } catch (fault) {
    showAnswer(answers[0]);
    fill(byId('states'), answerTitle('The answer as text'), html('p', { role: 'status' }, `This part couldn't be drawn (${fault.message}). The answer as text is below.`));
    byId('report-part').open = true;
  }
}

/** Shows the answer to a long command. */
function showLong(command, answers, options, input) {
  const [answer, beside] = answers, isGood = answer.status === GOOD, isUnended = answer.status === UNENDED;
  if (command === 'outcomes' && isUnended && answers.at(-1)?.status === GOOD) noteAnswer(input, JSON.parse(answers.at(-1).text));
  if (command === 'run') showLongRun(answer, beside, options, input);
  else if (command === 'outcomes' && isGood) showOutcomes(answer, beside, input);
  else if (command === 'outcomes' && isUnended) showMet(answer, options.depth);
  else if (command === 'counts' && (isGood || isUnended)) showCounts(answers);
  else if (command === 'why' && isGood) showReason(answer, input, beside);
  else if (command === 'why' && isUnended) showUnfinished(command, answer);
  else showOpenAnswer(answer);
}

/** Says of an answer that met its limit what it doesn't know, and what one can do. */
function showUnfinished(command, answer) {
  showAnswer(answer);
  foldReport(answer);
  fill(byId('states'), ...unfinishedParts(command));
}

/** What a task is asked: of outcomes and why the answer of sequential consistency too. */
function questionsOf(command, options) {
  if (command === 'run') return [options, { ...options, json: true }];
  if (command === 'outcomes') return [{ ...options, json: true }, ...(options.depth > 0 ? [{ ...options, depth: 0, json: true, after: GOOD }] : []),
    ...(whyCan(inputOf('why')) === null && options.states !== QUICK_STATES ? [{ command: 'why', json: true, after: UNENDED }] : [])];
  if (command === 'counts') return countedProtocols().map(protocol => ({ ...options, protocol, json: true }));
  if (command === 'why') return [{ ...options, json: true }, ...(options.model === 'tso' ? [{ command, json: true, model: 'sc', cases: POSSIBLE_CASES }] : [])];
  return [options];
}

function showLongRun(answer, line, options, input) {
  if (answer.status === GOOD && line !== undefined) {
    showAnswer(answer);
    if (showDriven(options, input, false)) return;
  }
  const isDrawn = answer.status === GOOD;
  showAnswer(answer);
  byId('report-part').open = !isDrawn;
  byId('no-steps').hidden = !(bench.tracing && (isDrawn || answer.status === UNENDED));
  if (isDrawn) showRun(readLine(line.text.trim()), line.text.trim());
}

const openBeside = status => `Without store buffers (SC) the search ${status === UNENDED ? 'met its limit' : 'was stopped'}: “Why …?” compares them.`;

function showOutcomes(answer, beside, test) {
  const outcomes = readOutcomes(answer.text), sequential = beside?.status === GOOD ? readOutcomes(beside.text) : null;
  showAnswer(answer);
  foldReport(answer);
  const more = sequential ? besideSentence(outcomes, sequential) : beside ? openBeside(beside.status) : null;
  const fine = more === null ? [] : [html('span', 'fine', ` ${more}`)];
  const said = html('p', { role: 'status', class: 'slide-said' }, html('span', 'asked'), ...judgedOutcomes(outcomes, test), verdictOf(observationSentence(outcomes, test)), ...fine);
  const sheetOfAll = statesSheet(outcomes, sequential, truthsOf(outcomes));
  fill(byId('states'), answerTitle('All outcomes'), ...strayPart(test), said, ...termsPart(test), ...sheetOfAll, ...outcomesInTerms(outcomes, sequential));
  showQuestion(test);
  showFromBehind();
}

/** Notes that a task can't be done, and judges what the reader of an exercise had said. */
function judgedOutcomes({ observation, depth }, test) {
  if (observation === null || depth !== SET_AT_FIRST.searched) return [];
  const can = (quantifierOf(test) === 'forall' ? observation.false : observation.true) > 0;
  possible[can ? 'told' : 'refuted'] = test;
  return judgeThought(can);
}

/** Shows what a search had met before its end. */
function showMet(answer, depth, isStopped = false) {
  const met = readMet(answer.text);
  if (met.states.length === 0) return showUnfinished('outcomes', answer);
  showAnswer({ ...answer, hint: isStopped || knownByWhy() !== null ? '' : answer.hint }); // no limit was met, or why has told
  foldReport(answer);
  const known = allMet(met.states, depth), way = wayOfWhy(known), all = { ...met, states: [...way, ...known], depth, isWithWhy: way.length > 0 };
  fill(byId('states'), answerTitle('Some outcomes'), ...openVerdict(known, metSentence(met, isStopped, known)), waysOn('outcomes', { isStopped }), ...statesSheet(all, null, truthsOf(all)));
}
