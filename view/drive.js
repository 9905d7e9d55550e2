'use strict';

// Driving: the choices that are made one by one, and what they do to the machine, or to two machines side by side.

const MOST_STEPS = 1000;
const FEW_CORES = 4; // so many have room beside the picture

/** What is driven, as a value: the known choices (`words`), of which the first `count` are made; the input's test, and the whole input where it
 * spells them itself (`given`); the machines' histories; the core that keys act on; the machine beside, or null. */
const NOT_DRIVEN = Object.freeze({ isOn: false, words: [], count: 0, test: '', given: null, histories: [], core: 0, beside: null });

let drive = NOT_DRIVEN;

const putDrive = changes => { drive = Object.freeze({ ...drive, ...changes }); };

/** What is drawn of it: the machines' panels, the picture of the first, and the list of what loads passed there. */
const drawn = { panels: [], picture: null, passes: null };
/** The timers of playing, and of what is drawn after the choices. */
const timers = { playing: null, resting: null };

const firstHistory = () => drive.histories[0];

const isAtEnd = ({ histories, count }) => histories.every(history => count >= history.steps.length && history.hasEnded(count));

/** The input of all choices that are known. */
const driveInput = () => drive.given ?? inputOfWords(drive.words);

const inputOfWords = words => `${drive.test}${DIVIDING_LINE}\n${words.join(' ')}\n`;

/** Begins to drive a history that is made of an input, after so many of its steps. */
function beginDrive(history, { test, given }, count) {
  stopPlaying();
  const words = history.steps.map(step => step.choice), core = Math.min(drive.core, history.cores - 1);
  putDrive({ isOn: true, test, given, words, core, count: Math.min(count, words.length) });
  putDrive({ histories: [history, ...historiesBeside(history.options)] });
  putPanels(drive.histories.map((each, at) => (drawn.panels[at]?.isOf(each) ? drawn.panels[at] : new MachinePanel(each))));
  putClass(byId('machines'), 'two', drive.histories.length === 2);
  putClass(byId('machines'), 'abreast', drive.histories.length > 2);
  putClass(byId('machines'), 'many', history.cores > FEW_CORES);
  nameStage(drive.histories.length, history.cores);
  Object.assign(drawn, { picture: null, passes: null });
  drawBesideChoices(history.options);
  showDrive();
}

/** What the style has to know of the machines. It asks no `:has` of what changes at each step, since a browser then looks through all of it. */
function nameStage(machines, cores) {
  const isFew = cores <= FEW_CORES, names = { lone: machines === 1 && isFew, four: machines > 2 && isFew, pair: cores === 2, three: cores > 2, seven: cores > 6 };
  for (const [name, is] of Object.entries(names)) putClass(byId('machines').parentElement, name, is);
  putClass(byId('run'), 'of-four', machines > 2);
}

function putPanels(panels) {
  if (panels.length === drawn.panels.length && panels.every((panel, at) => panel === drawn.panels[at])) return;
  drawn.panels = panels;
  fill(byId('machines'), ...panels.map(panel => panel.element));
}

function endDrive() {
  stopPlaying();
  putDrive({ isOn: false, histories: [] });
  Object.assign(drawn, { picture: null, passes: null });
  fill(byId('passes'));
}

// Making choices.

const REST_AFTER = 150; // milliseconds without a choice, after which what can wait is drawn

/** What is driven after one more choice: the known next one, or another, after which nothing comes. Null where a machine doesn't tell its step. */
function afterChoice(driven, word) {
  const core = coreOfChoice(word), count = driven.count + 1;
  if (driven.words[driven.count] === word) return { ...driven, core, count };
  const words = [...driven.words.slice(0, driven.count), word], histories = [];
  for (const history of driven.histories.map(each => each.upTo(driven.count))) {
    const isOver = history.steps.length < driven.count || history.hasEnded(driven.count), step = isOver ? null : lastStep(history.options, words);
    if (!isOver && !step) return null;
    histories.push(step ? history.with(step) : history);
  }
  return { ...driven, words, histories, core, count, given: null };
}

/** Whether the last choice changed no machine. */
const hasStalled = ({ histories, count }) => histories.every(({ steps }) => steps.length < count || steps[count - 1].outcome === 'stalled');

/** Makes a choice. One that would stall is made only where that is wanted (`mayStall`), or where it comes next anyway; else nothing changes. */
function makeChoice(word, mayStall = false) {
  if (!drive.isOn || isAtEnd(drive) || !lessonAllows(word)) return;
  const isNext = drive.words[drive.count] === word;
  if (!isNext && drive.count >= MOST_STEPS) return refuseMore();
  const next = afterChoice(drive, word);
  if (next === null) return stopBefore();
  if (!isNext && !mayStall && hasStalled(next)) return refuseStall(next, word);
  if (!isNext && drive.count < drive.words.length) keepBranch(drive);
  putDrive(next);
  if (!isNext) putWords();
  showDrive();
  lessonDid(word);
}

/** Says why a choice does nothing, and offers to make it all the same. */
function refuseStall({ histories: [history], count }, word) {
  const step = history.steps[count - 1], why = step ? STALLS[step.stall](coreOfChoice(word), history.machineAfter(count - 1)) : 'The first machine\'s test has ended.';
  putDrive({ core: coreOfChoice(word) });
  markKeyed(false);
  for (const panel of drawn.panels) panel.offerStall(word);
  (isLesson() ? sayInLesson : sayOfDriving)(`${why} So nothing happens.`);
}

/** Where no step came of a choice: leaves it out, with all that would come after it, and keeps what is said of it. */
function stopBefore() {
  const said = ['said', 'hint'].map(id => byId(id).textContent), { words, histories, count } = drive;
  putDrive({ words: words.slice(0, count), histories: histories.map(history => history.upTo(count)), given: null });
  putWords();
  showSaid({ hint: said[1] }, said[0]);
  showDrive();
}

const sayOfDriving = sentence => putExplained(byId('sentence'), sentence);

function refuseMore() {
  sayOfDriving(`The machine has made ${MOST_STEPS} choices, and the page shows no more steps than that. Write further choices into the field of choices: the page shows their run without steps.`);
  return false;
}

/** The step of the last of these choices; of a module without that command, from the whole trace. */
function lastStep(options, words) {
  const input = inputOfWords(words), answer = ahead.input === input ? ahead.answers.get(options) : undefined;
  const { status, text, hint } = answer ?? stepAnswer(options, input);
  if (isOfStep(status)) return readStep(text);
  if (status === Tso.STATUS.nothingAsked) return historyOf(options, input).history?.steps.at(-1);
  stopPlaying();
  showSaid({ status, hint }, text.trim());
  return null;
}

const isOfStep = status => status === GOOD || status === UNENDED;

const stepAnswer = (options, input) => (bench.tracing === 'step' ? asked({ ...options, command: 'step', json: true }, input) : { status: Tso.STATUS.nothingAsked });

/** The input that was asked ahead, with the answers of the machines by their options. */
let ahead = { input: null, answers: new Map() };

/** Asks what a choice would do as soon as its button goes down: a click comes when it goes up, and finds the answer there. */
function askAhead(word) {
  if (!drive.isOn || isAtEnd(drive) || drive.words[drive.count] === word || drive.count >= MOST_STEPS) return;
  const input = inputOfWords([...drive.words.slice(0, drive.count), word]);
  const answers = drive.histories.map(({ options }) => [options, stepAnswer(options, input)]);
  ahead = { input, answers: new Map(answers.filter(([, { status }]) => isOfStep(status))) };
}

/** Puts the known choices into their field, with all that goes by it. */
function putWords() {
  putChoicesLater(drive.words.join(' ') + '\n');
  bench.answer = null;
  showSaid({ hint: '' }, '');
  byId('report-part').open = false;
  clearTimeout(timers.resting);
  timers.resting = setTimeout(drawRest, REST_AFTER);
}

function drawRest() {
  writeChoices();
  keepAddress();
}

/** Shows the machines after so many choices. */
function goTo(count) {
  putDrive({ count: Math.min(drive.words.length, Math.max(0, count)) });
  showDrive();
}

const DRIVES = { first: () => goTo(0), back: () => goTo(drive.count - 1), forward: () => goTo(drive.count + 1), last: () => goTo(drive.words.length) };

function moveDriven(name) {
  stopPlaying();
  DRIVES[name]();
}

/** Draws choices of a seed: they come next, and aren't made yet. */
function drawSeed() {
  const seed = byId('drive-seed').value.trim(), isSeed = /^\d{1,18}$/.test(seed);
  byId('drive-seed').setAttribute('aria-invalid', String(!isSeed));
  if (!drive.isOn || isAtEnd(drive)) return;
  if (!isSeed) return sayOfDriving('A seed is a whole number of at most 18 digits.');
  const made = drive.words.slice(0, drive.count), length = MOST_STEPS - made.length;
  if (length === 0) return refuseMore();
  const { history } = historyOf(firstHistory().options, inputOfWords([...made, 'seed', seed, length]));
  if (!history) return sayOfDriving('The machine takes no choices of this seed.');
  beginDrive(history, { test: drive.test, given: null }, drive.count);
  putWords();
  sayOfDriving(`The choices of seed ${seed} are drawn. Forward makes one of them, and Play makes one after the other.`);
}

// Playing.

const SPEEDS = [0.5, 1, 2, 4, 8, 16, 32]; // choices in a second

function play() {
  if (!drive.isOn || isAtEnd(drive)) return;
  if (drive.count >= drive.words.length) {
    drawSeed();
    leaveOutStalls();
  }
  stopPlaying();
  timers.playing = setInterval(() => {
    goTo(drive.count + 1);
    moveToken();
    if (drive.count >= drive.words.length) stopPlaying();
  }, 1000 / SPEEDS[Number(byId('speed').value)]);
  showPlaying();
}

function stopPlaying() {
  clearInterval(timers.playing);
  timers.playing = null;
  showPlaying();
}

function showPlaying() {
  byId('play').textContent = timers.playing === null ? 'Play' : 'Pause';
  byId('speed-said').textContent = `${SPEEDS[Number(byId('speed').value)]} a second`;
}

const playOrPause = () => (timers.playing === null ? play() : stopPlaying());

function setSpeed(speed) {
  byId('speed').value = String(Math.min(SPEEDS.length - 1, Math.max(0, speed)));
  if (timers.playing !== null) play();
  showPlaying();
}

// Keys: a choice is typed as it is written, `0s` or `0d`; the core that was named last is kept.

/** Makes a choice of the core that was named. The focus goes along, where it was at another choice; below an open test the machine comes into sight. */
function chooseByKey(way) {
  const word = drive.core + way;
  makeChoice(word);
  if (byId('test-part').open) seeRun();
  if (!isLesson() && document.activeElement.dataset.choice) focusOn(query(`[data-choice="${word}"]`));
}

const DRIVE_KEYS = {
  s: () => chooseByKey('s'), d: () => chooseByKey('d'), p: playOrPause, r: drawSeed,
  '+': () => setSpeed(Number(byId('speed').value) + 1), '-': () => setSpeed(Number(byId('speed').value) - 1),
};

/** What a key does to the machine that is driven: whether it did anything. */
function driveByKey(key) {
  if (!byId('letter-keys').checked) return false;
  if (isAsked() && answerByKey(key)) return true;
  if (/^[0-7]$/.test(key) && Number(key) < firstHistory().cores) {
    putDrive({ core: Number(key) });
    markKeyed(true);
  } else if (Object.hasOwn(DRIVE_KEYS, key)) {
    DRIVE_KEYS[key]();
  } else {
    return false;
  }
  return true;
}
