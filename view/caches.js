'use strict';

// Caches and bus are out of sight until somebody asks for them: a core, its store buffer, memory and the order are all that TSO needs.

/** The settings that only caches and bus go by. */
const SETTINGS_OF_CACHES = ['protocol', 'bus', 'sets', 'ways', 'words'];

/** Whether somebody asked to see the caches (true) or to hide them (false); null while the settings decide. */
const cachesView = { wanted: null };

const isUsual = options => SETTINGS_OF_CACHES.every(name => options[name] === Tso.DEFAULTS[name]);

/** Whether nothing but the bus tells what a choice does: on a split bus a core asks for it first. */
const needsBus = machines => machines.some(({ bus }) => bus === 'split');

/** Whether caches and bus of these machines, each its options, are in sight. */
const showsCaches = machines => needsBus(machines) || (cachesView.wanted ?? !machines.every(isUsual));

const drivenMachines = () => drive.histories.map(({ options }) => options);

/** Shows or hides what belongs to caches and bus, and says which of the two at the box for it. */
function putCaches() {
  const machines = drivenMachines(), isShown = showsCaches(machines), box = byId('caches');
  putClass(byId('run'), 'plain', !isShown);
  Object.assign(box, { checked: isShown, disabled: needsBus(machines) });
  byId('beside-it').parentElement.hidden = !isShown && drive.beside === null && !isLecture();
  return isShown;
}

/** What somebody asks for by the box. */
function wantCaches(isWanted) {
  cachesView.wanted = isWanted;
  if (drive.isOn) showDrive();
  showSettings(currentCommand());
  showTestLine(currentCommand());
}

/** Where a step read its word, as a machine without caches has it: in a store buffer, or in memory. */
const plainSupply = supply => (supply?.isTaken ? null : supply === null || supply.from === 'buffer' ? supply : { ...supply, from: 'memory', owner: null });

/** A machine in words for readers, which a lesson brings one by one; `machineName` is for addresses. */
const machineTitle = options => `${!isLesson() ? `${options.protocol.toUpperCase()}, ${options.bus} bus` : 'Caches'}, ${plainMachineName(options)}${wordsSaid(options)}`;

const wordsSaid = ({ words }) => (valueOf('words') === 1 ? '' : `, ${words} ${words === 1 ? 'word' : 'words'} a line`);

/** Which words share a line, behind a test's name in a lecture; of a test about lines also that each has its own. */
function linesSaid() {
  const [history] = drive.histories, names = history && showsCaches(drivenMachines()) ? Object.keys(history.machineAfter(0).memory) : [];
  const { words } = history?.options ?? {}, isApart = words === 1 && notesOf(drive.test).Words;
  return names.length > 1 && (names.length <= words || isApart) ? `: ${listed(names)} in ${isApart ? 'a line each' : 'one line'}` : '';
}

/** A machine in words that speak of store buffers alone. */
const plainMachineName = ({ depth }) => (depth === 0 ? 'no store buffers' : `store buffers of ${depth} ${depth === 1 ? 'store' : 'stores'}`);
