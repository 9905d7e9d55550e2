'use strict';

// What stands beside the machine and makes the same choices: one other machine, or all four protocols abreast. What differs is marked.

/** In the place of a machine: those of the other protocols. */
const ABREAST = 'protocols';
const NO_OTHER = 'null'; // as the list of machines has it

const besideName = beside => (beside === ABREAST ? ABREAST : machineName(beside));

function besideNamed(name) {
  if (name === ABREAST) return ABREAST;
  const { options = {} } = readSettings('run'), others = otherMachines({ ...Tso.DEFAULTS, ...options }).slice(1);
  return others.find(machine => machineName(machine) === name) ?? null;
}

function machinesBeside(options) {
  if (drive.beside === null) return [];
  if (drive.beside !== ABREAST) return [drive.beside];
  return Tso.PROTOCOLS.filter(protocol => protocol !== options.protocol).map(protocol => ({ ...options, protocol }));
}

/** The histories of the machines beside the first under the same choices, if any are asked for. */
function historiesBeside(options) {
  return machinesBeside(options).map(machine => historyOf(machine, inputOfWords(drive.words)).history).filter(history => history !== undefined);
}

function drawBesideChoices(options) {
  const field = byId('beside-it'), others = otherMachines(options).slice(1), key = JSON.stringify(options);
  if (field.dataset.key !== key) {
    field.dataset.key = key;
    const option = (value, text) => html('option', { value: JSON.stringify(value) }, text);
    fill(field, option(null, 'no other machine'), option(ABREAST, 'all four protocols'), ...others.map(other => option(other, machineName(other))));
  }
  const wanted = drive.beside === null || drive.beside === ABREAST ? drive.beside : others.find(other => machineName(other) === machineName(drive.beside));
  field.value = wanted === undefined ? NO_OTHER : JSON.stringify(wanted);
}

function putBeside(text) {
  putDrive({ beside: JSON.parse(text) });
  beginDrive(firstHistory(), drive, drive.count);
  if (drive.beside === ABREAST && !isLesson()) scrollBy(0, (!isLecture() && boxOf(byId('list-bar')).top) || boxOf(byId('programs')).top - (isStepperBelow() ? 0 : byId('stepper').offsetHeight));
}

/** Programs in one line; of each what `marks` says of an instruction's place is its class, and what `after` gives stands behind it. */
const programLines = (programs, marks = () => '', after = () => []) => programs.map((program, core) => html('span', {}, html('strong', {}, `P${core}`), ' ',
  ...program.map((text, at) => html('code', { class: marks(core, at) }, text)), ...after(core)));

/** Where machines stand abreast: programs and registers, once for all, with each next instruction and the last one marked; and what all machines share. */
function showPrograms() {
  const history = firstHistory(), { count } = drive, isAbreast = drive.histories.length > 2;
  byId('programs').hidden = !isAbreast;
  if (!isAbreast) return;
  const [now, old] = [count, Math.max(0, count - 1)].map(each => history.machineAfter(each).cores.map(({ place }) => place));
  const marks = (core, at) => (at === now[core] ? 'next' : at === old[core] ? 'changed' : '');
  const { panels } = drawn.panels[0], registers = core => (panels[core].used.length === 0 ? [] : [panels[core].registers.element.cloneNode(true)]);
  const { bus, protocol } = history.options, shared = `${bus} bus, ${plainMachineName(history.options)}${wordsSaid(history.options)}`, wanted = wantedWords(history.proposition ?? ''), read = wanted && loadsSentence(wanted, history.programs);
  const end = !isLecture() || !read ? html('span', 'faint', shared) : html('strong', isTrueAfter(history, count) ? '' : 'later', reachedSentence(wanted, history.programs));
  fill(byId('programs'), ...programLines(asWritten(drive.test, history.programs), marks, registers), end);
  setAll(byId('driving'), { 'data-first': protocol.toUpperCase() });
}

/** Whether two machines did the same in the first steps. Where they differ, the last ones tell it soonest. */
const didSame = (one, other, count) => one.steps.slice(0, count).findLastIndex((step, at) => JSON.stringify(step) !== JSON.stringify(other.steps[at])) < 0;

/** Of a machine that did the same so far as one before it: that it did. */
function asFirst(history, count) {
  const same = count > 0 && drive.histories.slice(0, drive.histories.indexOf(history)).find(each => didSame(history, each, count));
  return same ? `, as ${same.options.protocol.toUpperCase()} ${history.hasEnded(count) ? 'in this run' : 'so far'}` : '';
}

const saidOtherwise = ({ sentences: own }, { sentences: first }) => own.filter(each => !first.includes(each)).join(' ') ||
  first.filter(each => !own.includes(each)).map(each => `Not here: ${each}`).join(' ');

/** Marks of each machine the lines of its caches, and its sentence, where they differ from those of the first. */
function markDifferences() {
  const [first, ...others] = drawn.panels;
  for (const panel of others) {
    if (others.length > 1) putText(panel.said, saidOtherwise(panel, first));
    for (const [own, other] of [[panel.said, others.length > 1 ? { textContent: '' } : first.said], [panel.bus.element, first.bus.element], [panel.memory.element, first.memory.element]]) {
      putClass(own, 'differs', own.textContent !== other.textContent);
    }
    markCounts(panel.tally, first.tally);
    panel.panels.forEach((core, at) => markRows(core.lines.element, first.panels[at].lines.element));
  }
}

/** Marks of the counts of misses, upgrades and so on those that differ. */
function markCounts(own, first) {
  const there = first.textContent.split(', ');
  fill(own, ...own.textContent.split(', ').flatMap((count, at) => [at === 0 ? '' : ', ', count === there[at] ? count : html('span', 'differs', count)]));
}

function markRows(table, first) {
  const there = [...first.rows].map(row => row.textContent);
  for (const row of table.rows) putClass(row, 'differs', !there.includes(row.textContent));
}
