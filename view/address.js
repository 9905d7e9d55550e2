'use strict';

// Addresses: of a test with its settings and choices, and of a picture.

/** The longest address that is given, in characters: mail and chat cut longer ones. */
const LONGEST_ADDRESS = 8000;
/** By these words an address of a test begins. Any other is that of a picture: a line of `run --json`. */
const TEST_ADDRESS = /^test=/;

/** One's own run, from which an answer of its test was asked; else null. */
const runBehind = () => (currentCommand() !== 'run' && ownRun.kept?.test === testNow() ? ownRun.kept : null);

/** The choices that an address has. */
const choicesOfAddress = () => runBehind()?.choices ?? choicesText();

/** The same, where the test has a run of them: such as are refused lead nobody anywhere. */
function choicesToTell() {
  const { options } = readSettings('run'), text = choicesOfAddress();
  const isRefused = text.trim() !== '' && options !== undefined && /^Refused choices/.test(asked(options, `${inputOf('sweep')}${DIVIDING_LINE}\n${text}`).text);
  return isRefused ? '' : text;
}

/** What stands after `#` in the address of what is written now. An answer's has the run that it was asked from, which it may explain. */
function currentAddress(choices = choicesOfAddress()) {
  const command = currentCommand();
  const pairs = [['test', testNow()], ['choices', choices], ['order', byId('given').value], ['command', command]];
  const told = pairs.filter(([name, value]) => name === 'test' || (name === 'command' ? value !== 'run' : value !== ''));
  const embedded = ROOT.classList.contains('embedded') ? [['embed', '1']] : [];
  return new URLSearchParams([...told, ...changedSettings().filter(([name]) => command !== 'why' || [...SETTINGS.run, ...SETTINGS.why].includes(name)), ...driven(), ...exerciseToKeep(), ...embedded]).toString();
}

/** Of a driven machine how many choices are made, where not all are, what is beside it, whether caches are wanted, and the step of a lesson. */
function driven() {
  const behind = runBehind();
  if (behind !== null && behind.count < countChoices(behind.choices)) return [['at', String(behind.count)]];
  if (!drive.isOn) return [];
  return [
    ...(drive.count < drive.words.length ? [['at', String(drive.count)]] : []),
    ...(drive.beside === null ? [] : [['beside', besideName(drive.beside)]]),
    ...(cachesView.wanted === null ? [] : [['caches', cachesView.wanted ? '1' : '0']]),
    ...(!isLesson() ? [] : [['lesson', lesson.told.name], ['step', String(lesson.at)]]),
  ];
}

// What is shown is kept in the address as one goes, so that it is there again after a reload, or when one comes back.

// An answer that takes the place of another has an address of its own, so that the browser's Back leads to the one before. `command` is
// that of the address which the browser has now, and `isNew` says that the next one is of another test.

const kept = { timer: null, atFirst: null, command: 'run', isNew: false };
const KEEP_AFTER = 150; // milliseconds without a change

/** What is shown next has an address of its own. */
function beginAddress() {
  keepAddress();
  kept.isNew = true;
}

/** Keeps what is shown in the address, a little later: a browser lets a page change its address some times in a second. */
function keepAddressSoon() {
  clearTimeout(kept.timer);
  kept.timer = setTimeout(keepAddress, KEEP_AFTER);
}

/** The page as it opens has no address of a test, and a picture's own stays while it is shown. */
function keepAddress() {
  if (!bench.tso || (shown.run !== null && !drive.isOn && byId('line').value !== '')) return;
  drawShare();
  noteVisit();
  followShown();
  const address = currentAddress(), isLong = address.length > LONGEST_ADDRESS;
  if (location.hash === '' && (isLong || address === kept.atFirst)) return;
  const isOther = kept.isNew || currentCommand() !== kept.command, put = isOther ? 'pushState' : 'replaceState';
  const shownAt = isLong ? location.href.split('#')[0] : '#' + address; // none where one that was kept would tell another test
  window.history[put]({ undoing: undoingToKeep(), done: [...doneParts], ...listToKeep() }, '', shownAt);
  Object.assign(kept, { command: currentCommand(), isNew: false });
}

/** Copies the address of what is shown. Of a page that is a file it is said what that is good for, with the button that makes a file for others. */
async function copyLink() {
  const address = `${location.href.split('#')[0]}#${currentAddress(choicesToTell())}`, isFile = location.protocol === 'file:';
  const said = isFile ? 'Copied. This page is a file here, so the link works on this computer alone. To send it to others: ' : 'Copied.';
  const place = await copyText(address, '#copied, .tools .page-saved', said, 'copy the address from the address bar');
  if (isFile) place?.append(html('button', { class: 'quiet', 'data-save': 'page' }, 'Save as a page'));
}

/** Copies the line for a shell. */
function copyWords() {
  const command = currentCommand(), said = command === 'tables' ? '' : ` Save the input makes ${inputName(command)}.`;
  return copyText(commandLine(command), '#words-copied', `Copied.${said}`, 'mark the line, and copy it');
}

function drawShare() {
  const address = currentAddress(), isShort = address.length <= LONGEST_ADDRESS;
  byId('too-long').hidden = isShort;
  byId('copy-link').disabled = !isShort;
  const sentence = `The address of what is shown would have ${address.length} characters, and at most ${LONGEST_ADDRESS} are possible. So a reload doesn't keep what is shown.`;
  byId('too-long').firstElementChild.textContent = isShort ? '' : sentence;
}

/** Puts what an address of a test tells into the fields. */
function openTest(fragment) {
  const told = new URLSearchParams(fragment);
  const why = ['test', 'choices', 'order'].map(name => whyTooLong(told.get(name) ?? '')).find(each => each !== null);
  if (why) return sayInSight(why);
  putInput(told.get('test'));
  putExercise(told);
  if (told.has('choices')) putChoices(told.get('choices'));
  if (told.has('order')) byId('given').value = told.get('order');
  putSettings(told);
  cachesView.wanted = told.has('caches') ? told.get('caches') === '1' : null;
  putCommand(told.get('command'));
  putDrive({ beside: besideNamed(told.get('beside')) });
  forgetOwnRun();
  const at = /^\d{1,4}$/.test(told.get('at') ?? '') ? Number(told.get('at')) : null;
  if (currentCommand() !== 'run') takeRunBehind(at);
  answerNow();
  if (LONG.includes(currentCommand()) && byId('said').textContent === '') begin();
  if (drive.isOn && at !== null) goTo(at);
  if (/^\d{1,2}$/.test(told.get('step') ?? '')) beginLesson(told.get('lesson'), Number(told.get('step')));
}

function openPicture(fragment) {
  try {
    showText(decodeURIComponent(fragment));
  } catch (fault) {
    if (!(fault instanceof URIError)) throw fault;
    showText('');
    putMessage('What stands after # in the address isn\'t a percent-encoded text.');
  }
}

/** What the address tells; where it tells nothing, what a saved page has to open. */
const addressAtFirst = () => location.hash.slice(1) || savedAddress();

/** Opens what the address tells. Where it tells nothing, the page stays as it is, or shows again what it began with. */
function showAddress() {
  const fragment = addressAtFirst() || (kept.atFirst ?? '');
  putEmbedding(fragment);
  if (fragment === '') return;
  endLesson();
  if (!TEST_ADDRESS.test(fragment)) openPicture(fragment);
  else if (bench.tso) {
    openTest(fragment);
    kept.command = currentCommand();
  } else putMessage('This is the address of a test, and there is no machine here to run it.');
}
