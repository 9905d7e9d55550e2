'use strict';

// Long work in sight: how long it goes on, how far it came, and how one stops it.

/** When the work began, what had the focus then, its clock, and what it told last, null before. */
const working = { since: 0, asker: null, clock: null, progress: null };

const secondsWorked = () => Math.floor((Date.now() - working.since) / 1000);
const grouped = count => count.toLocaleString('en');

/** How far a search is by now, if as fast as before: it begins anew with each higher limit. */
function estimated({ count, next, at, took }) {
  const reached = Math.min(next, count * (Date.now() - at) / Math.max(1, took)), step = 10 ** Math.max(0, Math.floor(Math.log10(Math.max(1, reached))) - 1);
  return Math.max(count, Math.floor(reached / step) * step);
}

/** How far the work came, about, and how far it may come. */
function progressText() {
  const { progress } = working;
  return progress === null ? '' : `${progress.pass === 0 ? 'About' : progress.command === 'why' ? 'The search met its limit. Now “why”: about' : 'Second pass, without store buffers: about'} ${grouped(estimated(progress))} of at most ${grouped(progress.most)} ${LIMIT_OF[progress.command]}.`;
}

function showWorking() {
  byId('working-time').textContent = secondsWorked() > 0 ? `${secondsWorked()} s.` : '';
  putText(byId('working-told'), progressText());
}

/** Says in the place of an answer that isn't there yet what it waits for. */
function sayInPlace(said) {
  const place = query('#states .to-begin');
  if (place) place.textContent = said;
}

function beginWorking() {
  Object.assign(working, { since: Date.now(), asker: focused(), progress: null });
  clearInterval(working.clock);
  working.clock = setInterval(showWorking, 500);
  byId('working').hidden = byId('stop').hidden = byId('busy').hidden = false;
  byId('stopped').hidden = true;
  byId('states').className = 'old';
  putText(byId('begin-said'), '');
  sayInPlace('Searching …');
  showReport();
  showWorking();
}

function endWorking() {
  clearInterval(working.clock);
  byId('working').hidden = byId('stop').hidden = byId('busy').hidden = byId('stopped').hidden = true;
  byId('states').className = '';
  sayInPlace(`Press “${BEGINS[currentCommand()]}”.`);
}

/** Notes how far the work came. */
function tellProgress(progress) {
  const at = Date.now();
  working.progress = { ...progress, at, took: at - (working.progress?.at ?? working.since) };
  showWorking();
}

/** Puts what is said of stopped work where that was begun beside the test, or was shown. */
function placeStopped() {
  const box = byId('stopped'), isBeside = isAskedBeside();
  if (isBeside) byId('brief').parentElement.after(box);
  else byId('working').after(box);
  putClass(box, 'placed', isBeside);
  box.hidden = false;
}

/** What the first question of the work was answered last; null where nothing is known yet. */
const firstAnswer = () => working.progress && (working.progress.before[0] ?? working.progress.answer);

/** Says in sight that the work was stopped, how far it had come, and what one can do. */
function sayStopped(command) {
  const { progress } = working, { states, unfinished } = command === 'outcomes' && progress !== null ? readMet(firstAnswer().text) : {}, met = states?.length ?? 0, among = unfinished?.states, known = met && allMet(states, readSettings(command).options.depth).length;
  const far = progress === null ? '' : `, at about ${grouped(estimated(progress))} of at most ${grouped(progress.most)} ${LIMIT_OF[progress.command]}`;
  byId('stopped-said').textContent = `Stopped after ${secondsWorked()} s${far}: there is no whole answer.`;
  fill(byId('stopped-ways'), ...(Object.hasOwn(LIMIT_OF, command) ? [waysOn(command, { isStopped: true, met, known, among })] : []));
  placeStopped();
}

/** Shows the final states that a stopped search had met. */
function showMetBefore() {
  const answer = firstAnswer();
  keepOwnRun();
  putCommand('outcomes');
  showMet(answer, showAsked('outcomes').options.depth, true);
  byId('stopped').hidden = true;
  focusAnswer();
}

/** Ends the work before its answer, with the focus at what one can do then; or with it, where only what it is compared with is open. */
function stopWork() {
  if (bench.task === null || bench.task.isAside) return stopTask();
  stopTask();
  const command = currentCommand();
  if (firstAnswer()?.status === GOOD) {
    drawLong(command, [firstAnswer(), { status: null }], showAsked(command).options, inputOf(command));
    return focusAnswer();
  }
  byId('report').textContent = laidOut(formats.texts[formatNow()] ?? '', formatNow());
  showSaid({ hint: '' }, '');
  sayStopped(command);
  focusOn(query('#stopped-ways button') ?? byId('stopped-close'));
  bringNear(byId('stopped'));
  if (!drive.isOn) return;
  putCommand('run');
  showAsked('run');
}

on(document, 'keydown', event => {
  if (event.key !== 'Escape') return;
  const panel = byId('test-part'), [title] = panel.children;
  if (event.target.matches('#test-part textarea')) title.focus(); // what is asked goes on
  else if (bench.task !== null) stopWork();
  else if (panel.open && event.target === title) panel.open = false;
  else if (isLecture() && byId('stopped').hidden && !panel.open) (lastLecture.isAsked ? toggleLecture : askToEnd)();
  else if (!isLecture() && !byId('way-back').hidden && !event.target.matches('textarea, input') && !query('#folds [open]')) backToRun(!isLesson());
});
on(byId('stop'), 'click', stopWork);
on(byId('stopped'), 'click', ({ target }) => 'met' in target.dataset && showMetBefore());
on(byId('stopped-close'), 'click', () => {
  byId('stopped').hidden = true;
  focusOn(working.asker);
});
