'use strict';

// Undo and redo, for choices, edits and settings; and the way back to one's own run from one of an answer.

const MOST_UNDONE = 300;
const MOST_KEPT = 100000; // characters that the browser keeps with the address
const TYPED_TOGETHER = 1000; // milliseconds: what is typed into one field within that is one edit

/** What was before (`past`), what is (`now`), what was undone (`future`), and the field and time of the last edit that was typed. */
const undoing = { past: [], now: null, future: [], field: null, time: 0 };

/** All that an act can change: the texts, the settings, the command, the place in the run, and what is beside the machine. */
function snapshotNow() {
  return {
    test: testNow(), given: byId('given').value, choices: choicesText(), command: currentCommand(), settings: JSON.stringify(changedSettings()),
    beside: drive.beside, caches: cachesView.wanted, count: drive.count, isOver: drive.isOn && drive.count === drive.words.length,
  };
}

const SAME_IN = ['test', 'given', 'choices', 'command', 'settings', 'beside', 'caches'];
const isSameSnapshot = (one, other) => SAME_IN.every(name => one[name] === other[name]);

/** Notes what an event changed. A change of the place in the run alone isn't one to undo. */
function remember(event) {
  if (!bench.tso) return;
  const now = snapshotNow(), { past } = undoing, before = undoing.now;
  if (before !== null && !isSameSnapshot(before, now)) {
    const field = event?.type === 'input' ? event.target.id : null, isOneEdit = field !== null && field === undoing.field && event.timeStamp - undoing.time < TYPED_TOGETHER;
    if (before.command !== now.command && isSameSnapshot(past.at(-1) ?? {}, now)) past.pop(); // back from an answer
    else if (!isOneEdit) past.push(before);
    if (past.length > MOST_UNDONE) past.shift();
    if (isSameSnapshot(past.at(-1) ?? {}, now)) past.pop(); // what was typed was taken back by hand
    Object.assign(undoing, { future: [], field, time: event?.timeStamp ?? 0 });
  }
  undoing.now = now;
  showUndoing();
}

/** Puts all back as it was. */
function restore(snapshot) {
  byId('test').value = snapshot.test;
  byId('given').value = snapshot.given;
  putChoices(snapshot.choices);
  putSettings(JSON.parse(snapshot.settings));
  putCommand(snapshot.command);
  putDrive({ beside: snapshot.beside });
  cachesView.wanted = snapshot.caches;
  answerNow();
  if (drive.isOn) goTo(snapshot.count);
  else if (LONG.includes(snapshot.command)) begin();
}

function turn(from, to) {
  if (from.length === 0) return;
  to.push(snapshotNow());
  undoing.now = from.pop();
  endLesson();
  restore(undoing.now);
  undoing.field = null;
  showUndoing();
}

const CHANGED_WORDS = { command: 'the last question', test: 'the change of the test', given: 'the change of the order', choices: 'a choice', settings: 'a setting', beside: 'what stands beside the machine', caches: 'whether caches are in sight' };

/** What is different first between two snapshots, in words; undefined where nothing is. */
const changeSaid = (one, other) => Object.entries(CHANGED_WORDS).find(([name]) => JSON.stringify(one[name]) !== JSON.stringify(other[name]))?.[1];

/** Goes one act back or forward, and says in the sentence over the machine which it was. */
function turnAndSay(from, to, word) {
  const before = snapshotNow();
  turn(from, to);
  const said = changeSaid(before, undoing.now);
  if (drive.isOn && said) sayOfDriving(`${word}: ${said}. ${byId('sentence').textContent}`);
}

const undo = () => turnAndSay(undoing.past, undoing.future, 'Undone');
const redo = () => turnAndSay(undoing.future, undoing.past, 'Done again');

// A reload keeps what can be undone: the browser keeps it with the address, for this page alone.

/** As many of the last snapshots as have room, the last one at the end. */
function lastSnapshots(snapshots, room) {
  const kept = [];
  for (let at = snapshots.length - 1; at >= 0; at--) {
    room -= JSON.stringify(snapshots[at]).length;
    if (room < 0) break;
    kept.unshift(snapshots[at]);
  }
  return kept;
}

const undoingToKeep = () => ({ past: lastSnapshots(undoing.past, MOST_KEPT), future: lastSnapshots(undoing.future, MOST_KEPT) });

/** Takes what can be undone, and what lessons are done, from what the browser kept. */
function takeUndoing(state) {
  const { past, future } = state?.undoing ?? {};
  if (Array.isArray(state?.done)) state.done.forEach(part => doneParts.add(part));
  markLessons();
  if (Array.isArray(past) && Array.isArray(future)) Object.assign(undoing, { past, future });
}

/** Each button says at the pointer what it would change. */
function showUndoing() {
  for (const [id, { length, [length - 1]: to }] of [['undo', undoing.past], ['redo', undoing.future]]) {
    byId(id).disabled = length === 0;
    byId(id).title = byId(id).ariaLabel = byId(id).textContent + (to && undoing.now ? `: ${changeSaid(to, undoing.now)}` : '');
  }
}

// One's own run, which an answer's run takes the place of.

/** One's own run (`kept`), the answer's run shown when something was asked (`shown`), and an answer's choices taken last (`taken`), or null. */
const ownRun = { kept: null, shown: null, taken: null };

/** Whether the run that is driven is an answer's, and not one's own again. */
const isAnswersRun = () => !byId('own-run').hidden && choicesText().trim() === ownRun.taken && ownRun.taken !== madeBefore();

/** The choices that were made of one's own run. */
const madeBefore = () => ownRun.kept.choices.trim().split(/\s+/).slice(0, ownRun.kept.count).join(' ');

/** Keeps the run that is one's own before another is shown: the one that is driven, unless that is an answer's. */
function keepOwnRun() {
  const isOwn = drive.isOn && byId('own-run').hidden;
  if (isOwn || ownRun.kept === null) ownRun.kept = { ...snapshotNow(), command: 'run' };
  if (drive.isOn) ownRun.shown = isOwn ? null : { ...snapshotNow(), said: byId('own-said').textContent };
}

/** Of an answer that is opened: the choices that came with it are one's own run, of which so many are made, or all. */
function takeRunBehind(at) {
  const known = countChoices(choicesText());
  if (known > 0) ownRun.kept = { ...snapshotNow(), command: 'run', count: Math.min(at ?? known, known) };
}

function forgetOwnRun() {
  Object.assign(ownRun, { kept: null, shown: null });
  showOwnRun();
}

/** Offers the way back, while what is shown isn't one's own run; `said` tells what it is. */
function showOwnRun(said = '') {
  byId('own-run').hidden = ownRun.kept === null;
  putText(byId('own-said'), said);
}

/** Back to the answer's run that was shown before something was asked, or to one's own. */
function backToShownRun() {
  const { shown: run } = ownRun;
  if (run === null) return backToOwnRun();
  stopTask();
  restore(run);
  showOwnRun(run.said);
}

function backToOwnRun() {
  const { kept: run } = ownRun;
  forgetOwnRun();
  stopTask();
  restore(run);
  bringNear(byId('stepper'));
}

for (const kind of ['click', 'input', 'change', 'keydown']) on(window, kind, remember);
on(document, 'keydown', event => {
  const isUndone = event.key.toLowerCase() === 'z' && !event.shiftKey, isRedone = event.key.toLowerCase() === 'y' || (event.key.toLowerCase() === 'z' && event.shiftKey);
  if (!(event.ctrlKey || event.metaKey) || event.altKey || event.target.matches('textarea, input:not([type=checkbox], [type=radio], [type=range])')) return;
  if (!isUndone && !isRedone) return;
  event.preventDefault();
  if (isUndone) undo();
  else redo();
});
onPress({ undo, redo, 'own-back': backToOwnRun });
