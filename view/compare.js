'use strict';

// The same choices on other machines, side by side.

const OTHER_DEPTHS = [0, 1, 2, 4, 32];
const SUMMED = COUNTS.filter(name => name !== 'forwards');

/** The machines that differ from this one in one setting: one word a line, each protocol, each bus, and some depths; this one first. */
function otherMachines(options) {
  const others = [
    { ...options, words: 1 },
    ...Tso.PROTOCOLS.map(protocol => ({ ...options, protocol })),
    ...Tso.BUSES.map(bus => ({ ...options, bus })),
    ...OTHER_DEPTHS.map(depth => ({ ...options, depth })),
  ];
  const isOther = machine => ['protocol', 'bus', 'depth', 'words'].some(name => machine[name] !== options[name]);
  return [options, ...others.filter(isOther)];
}

const machineName = ({ protocol, bus, depth, words }) => (words < valueOf('words') ? 'one word a line' : `${protocol.toUpperCase()}, ${bus} bus, depth ${depth}`);

/** What a run on a machine came to, as the cells of a row; where it didn't end, how far it came. */
function comparedCells(options, input, first) {
  const { status, text } = asked({ ...options, json: true }, input);
  if (status === UNENDED) {
    const { used, stalled } = JSON.parse(text).unfinished;
    return ['no', '', stalled, '', ...SUMMED.map(() => ''), used];
  }
  const run = readLine(text.trim());
  const isSame = run.order.map(entry => entry.text).join() === first;
  const counts = SUMMED.map(name => run.cache.reduce((sum, core) => sum + core.get(name), 0));
  const holds = run.condition === null ? '' : String(run.condition.holds);
  return ['yes', isSame ? 'the same' : 'another', run.choices.get('stalled'), holds, ...counts, run.choices.get('used')];
}

/** The table; a button in each row takes that machine. */
function comparisonTable(options, input, order) {
  const titles = ['Machine', 'Ended', 'Order', 'Stalled', 'Condition', ...SUMMED.map(name => name.replace('_', '-')), 'Choices used', ''];
  const first = order.map(entry => entry.text).join();
  return tableOf('The same choices on other machines', titles, otherMachines(options).map((machine, at) => html('tr', {},
    html('th', { scope: 'row' }, machineName(machine)),
    ...comparedCells(machine, input, first).map(cell => html('td', {}, String(cell))),
    html('td', {}, at === 0 ? 'this one' : html('button', { 'data-machine': JSON.stringify(machine),
      'aria-label': `Take ${machineName(machine)}` }, 'Take it')))));
}

/** Draws the comparison of the run that is shown, where it is looked at. */
function compareNow() {
  const { options } = readSettings('run'), isAnswered = drive.isOn || bench.answer?.status === GOOD;
  const isShown = isAnswered && currentCommand() === 'run' && shown.run !== null;
  byId('comparison').hidden = !isShown;
  if (isShown && byId('comparison').open) fill(byId('compared'), comparisonTable(options, drive.isOn ? driveInput() : inputOf('run'), shown.run.order));
}

function takeMachine(text) {
  const machine = JSON.parse(text);
  for (const name of ['protocol', 'bus', 'depth', 'words']) settingOf(name).value = machine[name];
  keepPosition(answerNow);
}
