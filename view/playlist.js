'use strict';

// A list of tests for a lecture: each as its address tells it, with a way to the next and to the one before. It is saved with the page.

/** The number of the last entry opened or added, or -1; the note's address, or null; what the bar says; whether one came from behind; the addresses of
 * entries left changed. */
const playlist = { at: -1, said: null, where: '', isFromBehind: false, left: new WeakMap() };

const UNSAVED = ' Closing this tab loses the lecture: save it as a page.';
const MOST_NAME = 80; // characters of an entry's name
const MOST_LISTED = 400000; // characters of a list that the browser keeps

const TITLES = { SB: 'Store buffering', SBF: 'Store buffering with fences', MP: 'Message passing', LB: 'Load buffering', 'false-sharing': 'False sharing', 'false-sharing-loads': 'False sharing, loads first' };

/** What an entry is, beside its test's name: what is asked, or whether choices are known, and how many machines stand abreast. */
function entryKind() {
  const command = currentCommand(), run = drive.words.length === 0 ? 'the test' : 'the run';
  if (command !== 'run') return command;
  return drive.beside === null ? run : `${run}, ${drive.beside === ABREAST ? 'four protocols' : 'two machines'}`;
}

const entryNow = () => ({ name: `${TITLES[testName()] ?? testName()}: ${entryKind()}`, address: currentAddress() });

/** An entry's name where somebody wrote it, and not the page. */
function ownNameOf({ name, address = '' }) {
  const test = nameIn(new URLSearchParams(address).get('test')), [first, kind = 'run'] = name.split(': ');
  return address === '' || (first === (TITLES[test] ?? test) && /^(the (run|test)(, (four protocols|two machines))?|[a-z]+)$/.test(kind)) ? '' : name;
}

/** Gives a test without choices those of the library, so that a lecture steps it. */
function takeKnownChoices() {
  const known = drive.isOn && drive.words.length === 0 && !isExercise() && LIBRARY.map(({ text }) => partsOf(text)).find(({ test, rest }) => test === testNow() && /^\d/.test(rest));
  if (!known) return;
  putChoices(known.rest.trim());
  answerNow();
  goTo(0);
}

/** Adds what is shown, and of a run what is made. */
function addToList(before = taught.list.length, name) {
  takeKnownChoices();
  const { isOn, count, words } = drive;
  if (isOn && count % words.length > 0) takeBranch({ words: words.slice(0, count), count });
  const one = Object.assign(entryNow(), name && { name }), at = taught.list.findIndex(({ address }) => address === one.address), isThere = at >= 0;
  if (!isThere && taught.list.length >= MOST_TAUGHT.tests) return sayListed(`The lecture has ${MOST_TAUGHT.tests} entries, and takes no more.`);
  if (!isThere) taught.list = taught.list.toSpliced(before, 0, one);
  playlist.at = isThere ? at : before;
  drawList();
  sayListed(`${isThere ? 'It is there already, as' : 'Added as'} ${playlist.at + 1}: ${one.name}.${isOn ? ` ${choicesSaid(drive.words.length)} to step.` : ''}${isSaved() ? '' : UNSAVED}`);
  query(byId('way-back').hidden ? '#listed' : '#way-back .listed').append(...offersNow().flatMap(each => [' ', each]));
  drawBar();
}

/** What goes with what was added. */
const offersNow = () => (currentCommand() === 'why' && !isListed('run') ? [listButton({ 'data-add-run': '', class: 'main' }, 'Add the run too')]
  : drive.beside === ABREAST && valueOf('words') > 1 ? [listButton({ 'data-add-padded': '' }, 'Add also: one word a line')] : []);

const isSaved = () => playlist.saved === taughtNow();

function addPadded() {
  openTest(withoutPlace(currentAddress()).replace(/&words=\d+/, '&at=0'));
  addToList(playlist.at + 1, entryNow().name.replace(/:.*/, ', one word a line'));
}

/** Whether an entry has a test, with this command. */
function hasShown({ address }, command, test = testNow()) {
  const told = new URLSearchParams(address);
  return told.get('test') === test && (!command || commandOf(told.get('command')) === command);
}

const isListed = (command, test) => taught.list.some(entry => hasShown(entry, command, test));

function addRun() {
  const { at } = playlist;
  backToRun();
  addToList(at);
}

function updateListed() {
  const entry = taught.list[playlist.at], one = entryNow();
  Object.assign(entry, one, { name: ownNameOf(entry) || one.name });
  drawList();
  sayListed(`It is ${playlist.at + 1} of ${taught.list.length} now.`);
}

function sayListed(sentence) {
  playlist.said = sentence === '' ? null : currentAddress();
  for (const place of queryAll('.listed')) putText(place, sentence);
}

/** Whether what is shown is of the test, and of the command too, of the entry that was opened or added last. */
function isOfEntry(isOfCommand = true) {
  const entry = taught.list[playlist.at];
  return entry !== undefined && hasShown(entry, isOfCommand && currentCommand());
}

const withoutPlace = address => address.replace(/&at=\d+/, ''); // in its run

const isChangedEntry = () => !isLecture() && isOfEntry() && withoutPlace(taught.list[playlist.at].address) !== withoutPlace(currentAddress());

const isToUpdate = () => isChangedEntry() && !isExercise();

/** Puts the list where one adds. */
function placeList() {
  const part = byId('list-part'), place = byId(byId('way-back').hidden ? 'saves' : 'way-back');
  if (part.parentElement !== place) place.append(part);
}

/** Keeps what is said of the list with what is shown: other notes go, and a changed entry can be put anew. */
function followShown() {
  const isChanged = isToUpdate();
  if (playlist.said !== null && playlist.said !== currentAddress()) sayListed('');
  for (const button of queryAll('[data-update-list]')) {
    button.hidden = !isChanged;
    putText(button, `Update ${playlist.at + 1} of ${taught.list.length}`);
  }
  if (playlist.where !== (isLecture() ? footSaid() : whereInList())) drawBar();
}

/** What the browser keeps for a reload: the list, which of it is shown, and whether in a lecture. */
const listToKeep = () => ({ name: taught.name, list: JSON.stringify(taught.list).length <= MOST_LISTED ? taught.list : [], listed: playlist.at, isLecture: isLecture() });

const keepList = () => window.history.replaceState({ ...window.history.state, ...listToKeep() }, '');

/** Takes the kept list after a reload, and goes on with the lecture, if there was one. */
function takeKeptList({ list, name, listed, isLecture: wasLecture }) {
  if (Array.isArray(list) && list.length > 0) tryTaught(JSON.stringify({ list, name }), () => {});
  if (Number.isInteger(listed)) playlist.at = Math.min(Math.max(-1, listed), taught.list.length - 1);
  if (wasLecture === true) putLecture(true);
  drawList();
}

function dropFromList(at) {
  taught.list = taught.list.toSpliced(at, 1);
  if (playlist.at >= at) playlist.at--;
  drawList();
}

function raiseInList(at) {
  const { list } = taught;
  taught.list = list.toSpliced(at - 1, 2, list[at], list[at - 1]);
  if (playlist.at === at) playlist.at--;
  else if (playlist.at === at - 1) playlist.at++;
  drawList();
}

/** Opens a test of the list: a run at its start, or at its end (`isAtEnd`). One left changed is so still, but not in a lecture. */
function openListed(at, isAtEnd = false) {
  const entries = toGoThrough();
  if (entries[at] === undefined) return;
  if (entries !== taught.list) return openOffered(entries[at], isAtEnd);
  if (at !== playlist.at && isChangedEntry()) playlist.left.set(taught.list[playlist.at], currentAddress());
  Object.assign(playlist, { at, isFromBehind: isAtEnd });
  endLesson();
  const entry = taught.list[at], left = isLecture() ? undefined : playlist.left.get(entry);
  playlist.left.delete(entry);
  openTest(left ?? entry.address);
  showInTurn(isAtEnd ? undefined : 0);
  notePrepared();
  if (drive.isOn) goTo(isAtEnd ? drive.words.length : 0);
  foldList();
  drawList();
}

/** Of an answer to which one came from the next test: shows its last arrow, or all outcomes. */
function showFromBehind() {
  showInTurn(playlist.isFromBehind ? undefined : 0);
  if (playlist.isFromBehind) sheet.cycle?.move('all');
  playlist.isFromBehind = false;
  showFoot();
}

const listButton = (attributes, text, isOff = false) => html('button', { ...attributes, ...(isOff ? { disabled: '' } : {}) }, text);

function whereInList() {
  const { list } = taught, { at } = playlist, place = `${at + 1} of ${list.length}`, all = manyEntries(list);
  if (lastLecture.isJust && isOfEntry(false)) return 'PageDown goes on with the lecture';
  if (at < 0) return all;
  if (playlist.said !== null) return byId('listed').textContent.split('. ')[0];
  if (isOfEntry()) return `${place}${isToUpdate() ? ', changed' : ''}: ${list[at].name}`;
  const isThere = isListed(currentCommand());
  if (isOfEntry(false)) return `${isThere ? place : 'Not in the lecture yet'}: ${plainName(list[at])}, ${currentCommand()}`;
  return isThere ? all : `Not in the lecture of ${all}`;
}

const plainName = entry => ownNameOf(entry) || entry.name.split(':')[0];

const listFile = kind => fileName(`${kind}-${taught.name || plainName(taught.list[0])}`.toLowerCase(), '.html');

/** The bar over the machine: which entry is shown, and the ways to the ones before and after. In a lecture the foot, whose names tell no answer. */
function drawBar() {
  const { list } = taught, { at } = playlist, isEnd = at + 1 >= list.length;
  byId('list-bar').hidden = list.length === 0 && !isLecture();
  if (isLecture()) return drawFoot();
  playlist.where = whereInList();
  const next = !isEnd ? `Next: ${list[at + 1].name} ▶` : at > 0 ? 'The end of the lecture' : 'Next ▶', isOther = list[at] !== undefined && !isOfEntry(false), isOut = at >= 0 && !isOfEntry(isEnd);
  fill(byId('list-bar'), isOther ? listButton({ 'data-listed': at }, `◀ ${list[at].name}`) : listButton({ 'data-listed': at - 1 }, '◀ Previous', at <= 0), html('span', {}, playlist.where), ...(playlist.said === null ? [] : offersNow()),
    ...(isToUpdate() ? [listButton({ 'data-update-list': '' }, `Update ${at + 1} of ${list.length}`)] : []), ...(isOut ? [] : [listButton({ 'data-listed': at + 1 }, next, isEnd)]),
    ...(isListed() ? [] : [listButton({ 'data-add-to-list': '' }, 'Add to the lecture')]), ...(at > 0 && isOfEntry() ? [listButton({ 'data-start': at }, `Start at entry ${at + 1}`)] : []));
}

function drawFoot() {
  const entries = toGoThrough(), { length } = taught.list, way = (at, text) => (entries[at] ? listButton({ 'data-listed': at, class: 'quiet' }, text) : html('i', {}));
  playlist.where = footSaid();
  fill(byId('list-bar'), way(placeBefore(), '◀ Previous'), listButton({ 'data-onward': '', class: lastLecture.isAsked ? 'quiet main' : 'quiet' }, playlist.where, !onward()), way(placeNow() + 1, 'Next ▶'));
  setAll(byId('asked-line'), { 'data-place': length > 1 && isOfEntry(false) ? [`${playlist.at + 1} of ${length}`, taught.name].filter(Boolean).join(' · ') : '' });
}

function drawList() {
  drawOfList();
  const way = (name, each, label, text, isOff) => [' ', listButton({ [`data-${name}`]: each, class: 'quiet', 'aria-label': label }, text, isOff)];
  fill(byId('list'), ...taught.list.map(({ name, address, noReason }, each, { length }) => html('li', {}, listButton({ 'data-listed': each, class: 'quiet' }, name),
    ...way('raised', each, `Move ${name} up`, 'up', each === 0), ...way('raised', each + 1, `Move ${name} down`, 'down', each === length - 1),
    ...way('renamed', each, `Rename ${name}: in a lecture that is the headline`, 'rename'), ...way('unlisted', each, `Take ${name} off the lecture`, 'take off'), ...aboutRun(new URLSearchParams(address), each, !noReason))));
}

/** How far a run of the list goes, and whether its reason follows, where `isWhyNext` allows. */
function aboutRun(told, each, isOn) {
  const test = told.get('test'), tick = html('input', { type: 'checkbox', 'data-reason': each });
  tick.checked = isOn;
  const hasReason = quantifierOf(test) !== null && !told.has('beside') &&
    !(told.has('caches') ? told.get('caches') === '1' : SETTINGS_OF_CACHES.some(name => told.has(name))) && !isListed('why', test);
  return told.has('command') ? [] : [` ${choicesSaid(countChoices(told.get('choices') ?? ''))} `, ...(hasReason ? [html('label', {}, tick, ' with its reason, by arrows')] : [])];
}

function drawOfList() {
  keepList();
  sayListed('');
  const { list } = taught;
  byId('list-part').hidden = list.length === 0;
  byId('list-name').value = taught.name;
  sayList();
  queryAll('[data-lecture]').forEach(nameLecture);
  byId('save-exercises').hidden = list.length < 2;
  for (const button of queryAll('[data-add-to-list]')) putText(button, `Add to ${list.length > 0 ? 'the' : 'a'} lecture`);
  for (const button of queryAll('[data-save=page]')) putText(button, `Save ${list.length < 2 ? '' : 'the lecture '}as a page`);
  drawBar();
  followShown();
}

const manyEntries = ({ length }) => `${length} ${length === 1 ? 'entry' : 'entries'}`;

/** Over the list how much is in it, below it whether it is saved. */
function sayList() {
  putText(byId('list-said'), `Lecture: ${manyEntries(taught.list)}`);
  putText(byId('list-kept'), isSaved() ? 'Saved. After a change save it again:' : `Closing this tab loses ${playlist.saved ? 'the changes' : 'the lecture'}:`);
}

/** Puts a field in the place of an entry's name until it is left; the other buttons stay, for who presses one then. */
function renameListed(at) {
  const item = byId('list').children[at], entry = taught.list[at], old = entry.name;
  const field = html('input', { type: 'text', inputmode: 'text', maxlength: MOST_NAME, 'aria-label': 'Name in the lecture' });
  const limit = html('div', { role: 'status' });
  field.value = old;
  item.firstElementChild.replaceWith(field);
  item.append(limit);
  field.focus();
  field.select();
  on(field, 'input', () => putText(limit, field.value.length < MOST_NAME ? '' : `${MOST_NAME} letters at most.`));
  on(field, 'blur', () => {
    limit.remove();
    entry.name = field.value.trim() || old;
    for (const each of item.querySelectorAll('button')) each.ariaLabel = each.ariaLabel.replace(old, () => entry.name);
    field.replaceWith(listButton({ 'data-listed': at, class: 'quiet' }, entry.name));
    drawOfList();
  });
  on(field, 'keydown', event => {
    if (!['Enter', 'Escape'].includes(event.key)) return;
    event.stopPropagation();
    event.preventDefault(); // so that the same key doesn't press what gets the focus
    if (event.key === 'Escape') field.value = old;
    field.blur();
    item.firstElementChild.focus();
  });
}

on(byId('list-part'), 'change', ({ target: { id, dataset: { reason }, value, checked } }) => {
  if (id) taught.name = value.trim();
  else if (reason) taught.list[reason].noReason = !checked;
  drawOfList();
});
on(byId('list-part'), 'toggle', ({ target }) => target.open && bringNear(target));

function foldList() {
  query('#list-part:focus-within > summary')?.focus();
  byId('list-part').open = false;
}

/** What buttons do, by their data: some with an entry's number. */
const LIST_ACTS = { listed: openListed, raised: raiseInList, renamed: renameListed, unlisted: dropFromList, addToList, addRun, addPadded, updateList: updateListed };

on(document, 'click', ({ target, target: { dataset = {} } }) => {
  const name = Object.keys(LIST_ACTS).find(each => each in dataset), isAtBar = target.closest?.('#list-bar');
  if (name) LIST_ACTS[name](...(dataset[name] ? [Number(dataset[name])] : []));
  if (name?.startsWith('add') && !isAtBar) bringNear(byId('list-part'));
});
