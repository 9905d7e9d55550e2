'use strict';

// The sheet of `why`: what was asked, and why it can't be, or how it can.

/** The sheet that is shown: the answer, the programs as written and as read, and the cycle that is drawn. */
const sheet = { told: null, programs: null, read: null, cycle: null, answered: [], width: 0 }; // `answered`: of what it was made, in a window of such a width

/** What an act gives; false where an older module throws. */
function tried(act) {
  try {
    return act();
  } catch {
    return false;
  }
}

/** Whether a module answers a command on the first test. */
const answersTo = (tso, command) => tried(() => tso.answer({ command, json: true, seeds: 1 }, EXAMPLES[FIRST_TEXT]).text.startsWith('{'));

/** Whether a module has the larger set of instructions. */
const hasLargerSet = tso => tried(() => tso.answer({ command: 'check', instructions: 'neither' }, '').status === Tso.STATUS.nothingAsked);

/** A test's programs, its condition's text or null, and the machine at its start, by its trace without choices. */
function readTest(input) {
  const { text } = asked({ command: 'trace', json: true }, `${partsOf(input).test}${DIVIDING_LINE}\n`), { programs, proposition, start } = readTrace(text);
  return { programs, proposition, start };
}

const MOST_PASSES = 4; // that are told of an execution; of more half as many
const FEW_PASSES = 3; // of a run that did a task

const ORDINALS = ['first', 'second', 'third', 'fourth', 'fifth', 'sixth', 'seventh', 'eighth'];

/** How code names count, by one of them in a text; empty where it has none. */
function codesSaid(text) {
  const [name, core, place] = /P(\d):([0-7])(?!\d)/.exec(text) ?? [];
  return name ? ` ${name} is the ${ORDINALS[place]} instruction of P${core}: programs count from 0.` : '';
}

/** What the letters in the boxes of a picture are, and how to read the words beside it. */
function keyOfEdges(edges, words) {
  const isLocked = eventsOf(edges).some(({ kind }) => kind[0] === 'L');
  return `W: a store. R: a load.${isLocked ? ' LR and LW: the two parts of a locked instruction.' : ''}${codesSaid(words + (query('.tree')?.textContent ?? ''))}${readAsSaid(sheet.test)}`;
}

const READ_AS = { INC: 'ADD', DEC: 'SUB' };

/** Which instructions of a test are read as others, or do nothing. */
function readAsSaid(test) {
  const found = new Set(test.match(/\b[LS]FENCE\b(?= *[|;])|\b(?:LOCK +)?(?:INC|DEC) +(?:\[\w+\]|[ER]?(?:[A-D]X|[SD]I)\b)/gi));
  return [...found].map(text => ` ${text} ${/FENCE/i.test(text) ? 'has no effect here' : `is read as ${text.replace(/INC|DEC/i, verb => READ_AS[verb.toUpperCase()])},$1`}.`).join('');
}

/** Shows what `why --json` told of a test, and `beside` it of sequential consistency. */
function showReason(answer, test, beside) {
  const told = JSON.parse(answer.text), { programs: read, proposition, start } = readTest(test), programs = asWritten(test, read);
  showAnswer(answer);
  foldReport(answer);
  Object.assign(sheet, { told, programs, read: { programs: read, start }, test, cycle: null, events: null, answered: [answer, test, beside], width: innerWidth });
  showQuestion(test); // no picture repeats it
  const isTso = told.model === 'tso', can = told.answer !== 'never';
  if (isTso) possible[can ? 'told' : 'refuted'] = test;
  if (isTso) noteAnswer(test, told);
  const { said = [], drawn, run = [], more = [] } = can ? allowedParts(told, programs, proposition, beside) : { drawn: refutedParts(told) };
  const title = isClaim(test) ? `Why ${claimWords(!can).toLowerCase()}` : !can ? 'Why it can\'t be' : told.asked === null ? 'How it may end' : 'How it can be';
  const early = told.asked === null ? {} : { 'data-early': '' }; // a lecture shows it with the last arrow
  const heading = answerTitle(title);
  setAll(heading, early);
  const section = html('section', { class: 'reason', 'aria-label': 'Why' }, heading, ...strayPart(test),
    html('p', { role: 'status' }, ...(isTso ? judgeThought(can) : []), verdictOf(plainAnswer(told, proposition, quantifierOf(test)), early), ...said),
    ...termsPart(test), ...enoughPart(told, test, proposition), ...drawn, ...countsOffer());
  fill(byId('states'), section);
  const [first, second] = can ? [] : cyclesOf(told.steps);
  if (first) drawCycle(first.at);
  if (!second) section.querySelector('[data-cycle]')?.remove(); // the one that is drawn
  showFromBehind();
  const isDrawn = section.querySelector('figure') !== null, terms = html('p', 'terms', html('strong', {}, 'In litmus terms: '), reasonSentence(told, proposition));
  if (!isDrawn) section.querySelector('[role=status]').after(html('p', 'small faint', codesSaid(section.textContent), readAsSaid(test)));
  const fold = html('details', more.length > 0 ? 'in-tables' : 'in-tables terms', html('summary', {}, 'More about this answer'), ...more, terms), codes = codesSaid(fold.textContent);
  if (codes) fold.append(html('p', 'small faint', codes));
  section.append(sheetTools(isDrawn, run), fold);
}

/** Makes the sheet anew where the window's width is another: pictures are laid out for one. */
function fitReason() {
  if (sheet.width === innerWidth || !query('.reason')) return;
  const step = sheet.cycle?.shown;
  showReason(...sheet.answered);
  sheet.cycle?.show(step);
}

/** An answer's first sentence, with a sign before a yes and a no. */
function verdictOf(sentence, attributes = {}) {
  const kind = /^(Yes:|The claim holds)/.test(sentence) ? 'yes' : /^(No:|The claim)/.test(sentence) ? 'no' : 'plain';
  return html('strong', { ...attributes, class: `is-${kind}` }, sentence);
}

/** The answer in one plain sentence, with the words of the condition where it is plain. What the test claims is judged first. */
function plainAnswer({ answer, asked }, proposition, quantifier) {
  if (asked === null && answer !== 'never') return 'The test has no condition: add one, as exists (0:EAX=0).';
  return asClaimed(answer !== 'never', quantifier, asked !== null && asked.truth === (quantifier !== 'forall') ? wantedWords(proposition) : null);
}

/** Whether a run ends as is asked (`can`; of `forall`: otherwise), which `wanted` words tell, as the verdict on the condition. */
function asClaimed(can, quantifier, wanted) {
  const end = endWords(wanted), read = wanted && quantifier !== 'forall' && loadsSentence(wanted, readTest(inputOf('sweep')).programs);
  if (read) return `${quantifier === 'exists' ? (can ? 'Yes' : 'No') : claimWords(!can)}: ${read} in ${can ? 'a' : 'no'} run.`;
  if (quantifier === 'exists' || quantifier === null) return can ? `Yes: a run ends ${end}.` : `No: no run ends ${end}.`;
  const ends = quantifier === 'forall' ? (can ? 'not each run' : 'each run') : can ? 'a run' : 'no run';
  return `${claimWords(!can)}: ${ends} ends ${end}.`;
}

const isClaim = test => !['exists', null].includes(quantifierOf(test));
const claimWords = holds => `The claim ${holds ? 'holds' : 'is false'}`;

/** Which of the wanted words already can't be together, as the module says: those that no cycle has are left out first. */
function enoughPart({ answer, asked: wish, model, steps }, test, proposition) {
  const wanted = (answer === 'never' && wish?.truth && wantedWords(proposition)) || [], until = Date.now() + 200;
  const { facts = [] } = steps?.find(({ step }) => step === 'given') ?? {}, isUsed = place => cyclesOf(steps).some(({ cycle }) => cycle.some(({ to }) => to === facts[wanted.indexOf(place)]));
  const few = wanted.toSorted((one, other) => isUsed(one) - isUsed(other)).reduce((kept, place) => {
    const fewer = kept.filter(each => each !== place), condition = fewer.map(({ core, register, location, word }) => `${location ?? `${core}:${register}`}=${word}`).join(' /\\ ');
    const input = test.replace(/^[ \t]*(~[ \t]*)?exists\b[^]*/m, () => `exists (${condition})\n`);
    return Date.now() < until && asked({ command: 'why', json: true, model, cases: 100 }, input).text.startsWith('{"answer":"never"') ? fewer : kept;
  }, wanted);
  return few.length === wanted.length || (!few.some(isUsed) && wanted.some(isUsed)) ? [] : [html('p', {}, `${wantedSentence(few)} ${few.length === 1 ? 'is' : 'are'} enough for that.`)];
}

/** Where caches are in sight: that a reason speaks of values alone, and where misses are counted. */
function countsOffer() {
  const { options } = readSettings('run'), isCounting = query('#commands [value=counts]') !== null;
  if (options === undefined || !showsCaches([options])) return [];
  const buttons = isCounting ? [html('button', { 'data-ask': 'counts' }, 'Count the misses')] : [];
  const where = isCounting ? 'The counts tell what the caches do in many runs.' : 'In a run, what stands at “Bus” counts the misses so far, for each protocol that stands beside.';
  return [html('p', 'buttons', ...buttons, html('span', {}, `This sheet speaks of values alone. ${where}`))];
}

/** What can be done with the sheet: its run made, what it draws saved in the colours that are chosen, and a lecture. */
function sheetTools(isDrawn, run) {
  const colours = byId('saved-colours').parentElement.cloneNode(true), [choice] = colours.children;
  choice.removeAttribute('id');
  choice.value = byId('saved-colours').value;
  on(choice, 'change', () => { byId('saved-colours').value = choice.value; });
  const save = (kind, name) => html('button', { class: 'quiet', 'data-save': `reason-${kind}` }, name);
  const saves = isDrawn ? [save('svg', 'Save the picture as SVG'), save('png', 'as PNG'), colours] : [];
  return html('p', 'buttons tools', ...run, html('span', 'of-sheet', ...saves, linkButton(), lectureButton()), html('span', { class: 'page-saved', role: 'status' }));
}

const FEW_TOGETHER = 4; // leaves of a low tree; more lemmas fold together

function refutedParts({ steps, leaves }) {
  const nodes = treeOf(steps), isLemma = ({ step }) => step.step === 'never', count = nodes.filter(isLemma).length, listOf = some => treeList(some, steps, leaves <= FEW_LEAVES);
  const fold = count > FEW_TOGETHER ? [html('details', 'lemmas', html('summary', {}, `${count} lemmas, in steps`), listOf(nodes.splice(nodes.findIndex(isLemma), count)))] : [];
  return [html('div', { class: leaves <= FEW_TOGETHER ? 'refuted few' : 'refuted' }, html('div', 'tree', ...fold, listOf(nodes)), html('div', 'drawn'))];
}

/** A run of sequential consistency, on store buffers that drain at once where it is one there. */
function calmOf(told, programs) {
  const choices = drainedAtOnce(programs, told.choices), run = runOf(choices, 'tso');
  return run !== null && isExecution(run.order, told) ? { ...told, model: 'tso', choices } : told;
}

function allowedParts(answered, programs, proposition, beside) {
  const sequential = answered.asked && beside?.status === GOOD ? JSON.parse(beside.text) : null, isToo = sequential?.answer === 'allowed';
  const isCalm = isToo && !ownWords(answered).isShown, told = isCalm ? calmOf(sequential, programs) : answered, own = ownWords(told);
  const { model, coherence } = told, late = isCalm ? null : lateRun(programs, DEPTH_OF[model]);
  const choices = own.isShown ? own.choices : late && isExecution(late.run.order, told) ? late.choices : told.choices;
  const places = proposition === null ? null : wantedWords(proposition), wanted = places === null ? [] : askedPlaces(programs, places, coherence);
  const executed = edgesOf(told);
  const loads = loadsThatPassed(choices, model), cycle = forbiddenCycle(executed, programs, loads, wanted);
  const passes = passEdges(loads, executed, cycle, wanted), few = cycle.length > 0 ? cycle : askedEdges(executed, wanted);
  const edges = [...new Set([...cycle, ...passes, ...few, ...executed])];
  const isMany = few.length > 0 && edges.length > (cycle.length > 0 ? FEW_BESIDE : MANY_EDGES);
  const run = html('button', { 'data-choices': choices, 'data-depth': DEPTH_OF[model] }, 'Run it');
  const isOpen = edgesOfPrograms(executed, programs).some(({ relation, to }) => relation === 'unkept' && !loads.some(({ text }) => nameOfEvent(text) === nameOfEvent(to)));
  const isOther = wanted.some(place => /,\[/.test(programs[place[1]]?.[place.slice(3)])) && cycle.some(({ to }) => isLoad(to) && !isNamed(to, wanted));
  const { said: passing, more } = passesPart(loads, own.said, cycle, { wanted, isToo, isMany, isOpen }), note = choices === answered.choices ? [] : [html('p', 'ways-said', isCalm ? 'The answer as text has a run of its own.' : 'The answer as text has another run of the same execution.')];
  return {
    said: sequentialPart(sequential, isCalm && loads.length === 0),
    drawn: executionPart(programs, edges, isMany ? few : edges, cycle, passing, isToo || sequential === null ? [] : forbidPart(sheet, cycle), isOther),
    run: [html('span', 'of-run', run, ...choicesPart(choices))],
    more: [...more, html('div', 'beside', ...executionTables(told.asked === null ? { ...told, values: { ...registersAtEnd(choices, programs, model), ...told.values } } : told)), ...note],
  };
}

/** An execution that is drawn, edge by edge: first its forbidden cycle (`isOther`: by loads not asked for). What is told `beside` is under its legend. */
function executionPart(programs, edges, few, cycle, beside, offer, isOther) {
  if (edges.length === 0) return [];
  const [first] = cycle, end = first && `So this run needs store buffers${isOther ? ', by other loads than those asked for' : ''}: without them ${eventWords(first.from)} would be before itself. TSO doesn't keep the dashed arrow${cycle.filter(({ relation }) => relation === 'unkept').length > 1 ? 's' : ''}.`;
  const told = { end: end ?? '', name: 'The execution', closed: cycle.length, beside, offer };
  const panelOf = (shown, isPicked) => new CyclePanel(programs, shown, isPicked ? { ...told, end: '', closed: 0 } : told);
  return [drawExecution(programs, edges, few, panelOf, first ? 'a cycle that needs store buffers' : 'those at what is asked for')];
}

/** Whether one's own run is the one that is shown, its choices, and how a sentence names the shown run. */
function ownWords(told) {
  const { test, count = 0 } = ownRun.kept ?? {}, made = count > 0 ? madeBefore() : '';
  const run = test === testNow() && count > 0 ? runOf(made, told.model) : null;
  if (run === null || run.condition?.holds !== told.asked?.truth) return { isShown: false, said: 'this run' };
  const isShown = isExecution(run.order, told);
  return { isShown, choices: made, said: isShown ? 'your run' : 'another run that ends so' };
}

/** The run of some choices of the test; null where it doesn't end. */
function runOf(choices, model) {
  const { status, text } = asked({ command: 'run', json: true, depth: DEPTH_OF[model] }, `${inputOf('sweep')}${DIVIDING_LINE}\n${choices}\n`);
  return status === GOOD ? tellEntries(readLine(text.trim())) : null;
}

/** The registers that programs write, as the run of these choices leaves them. */
const registersAtEnd = (choices, programs, model) => Object.fromEntries((runOf(choices, model)?.registers ?? []).flatMap((file, core) =>
  [...new Set(programs[core].flatMap(writtenBy))].map(name => [`${core}:${name}`, file.get(name)])));

/** What sequential consistency tells of the same end: if it can be there too, no fence is a cure. */
function sequentialPart(told, isCalm) {
  if (told === null) return [];
  const said = told.answer !== 'allowed' ? [`Without store buffers (sequential consistency): ${isClaim(sheet.test) ? 'the claim holds' : 'it can\'t be'}.`]
    : [html('strong', {}, 'No fence can forbid this end: sequential consistency allows it, too.'), isCalm ? ' In the run shown here no load passes a store.' : ''];
  return [' ', html('span', 'sequential', ...said)];
}

/** The choices of a run that was found, folded where they are many. */
function choicesPart(choices) {
  return choices.length < LONG_CHOICES ? [html('span', {}, 'by the choices ', html('code', {}, ...foldedChoices(choices)))] : foldedChoices(choices, LONG_CHOICES, 'by ');
}

/** The loads that passed earlier stores in the run of these choices. */
const loadsThatPassed = (choices, model) => (runOf(choices, model)?.order ?? []).filter(({ passed }) => passed.length > 0);

/** Whether a cycle has this load behind a store. */
const isOfCycle = (load, cycle) => cycle.some(({ relation, to }) => relation === 'unkept' && nameOfEvent(to) === nameOfEvent(load.text));

/** These loads as they are told: those of the cycle first, then those that the condition asks for, by their cores. */
const toldFirst = (loads, cycle, wanted) => [...loads].sort((one, other) => isOfCycle(other, cycle) - isOfCycle(one, cycle) || isNamed(other.text, wanted) - isNamed(one.text, wanted) || one.text.localeCompare(other.text, 'en', { numeric: true }));

/** What is told of loads and no cycle has: program order to a load that passed a store, or where its value is from. */
function passEdges(loads, executed, cycle, wanted) {
  const drawn = eventsOf(executed).map(({ text }) => nameOfEvent(text)), told = toldFirst(loads, cycle, wanted).slice(0, MOST_PASSES);
  return told.filter(load => !isOfCycle(load, cycle)).flatMap(({ text, location, passed }) => {
    const stores = passed.filter(store => store.location !== location), store = stores.find(each => drawn.includes(nameOfEvent(each.text))) ?? stores[0];
    return store === undefined ? executed.filter(({ relation, to }) => relation === 'rf' && to === text) : [{ from: store.text, relation: 'unkept', to: text }];
  });
}

/** What a load passed in sentences, with code names where its own words name another one too. */
const passWords = load => passSentences(load).map(each => (eventWords(load.text).endsWith(')') ? each : each.replace(/ \(.*\)/, '')));

/** What loads passed in the run that a sentence names so, and what keeps such an order. Of many those of the cycle, others in a fold. `isOpen`: others may pass. */
function passesPart(loads, named, cycle, { wanted, isToo, isMany, isOpen }) {
  const passes = toldFirst(loads, cycle, wanted).flatMap(passWords), isOne = loads.length === 1;
  if (passes.length === 0) return { said: [], more: [] };
  const title = isOne ? 'A load passes a store' : 'Loads pass stores', most = isMany ? Math.max(1, loads.filter(load => isOfCycle(load, cycle)).length) : MOST_PASSES;
  const rest = passes.splice(passes.length > MOST_PASSES ? Math.min(most, MOST_PASSES / 2) : most);
  const others = `In another run that ends so, other loads may pass${isToo ? ', or none' : ''}.`;
  const enough = isOne ? 'It takes only one load that passes its store. ' : '', cure = isToo ? '' : `MFENCE or a locked instruction between the store and the load would keep their order.${isOpen ? ` ${others}` : ''}`;
  const list = rest.length === 0 ? [] : [html('details', {}, html('summary', {}, `And ${rest.length} ${rest.length === 1 ? 'other' : 'others'}.`), html('ul', {}, ...rest.map(each => html('li', {}, each))))];
  return {
    said: [html(list.length > 0 ? 'div' : 'p', 'passing', html('strong', {}, `${title} in ${named}: `), passes.join(' '), ...list, ...explained(` ${enough}${cure}`, {}))],
    more: [html('p', {}, isToo ? others : `A load that passes a store is the one change of a program's order that TSO allows.${isOpen ? '' : ` ${others}`}`)],
  };
}

/** Marks a step of the tree, and opens the cases that it is in. */
function markStep(at) {
  for (const item of queryAll('[data-step]')) putClass(item, 'drawn-case', Number(item.dataset.step) === at);
  for (const fold of queryAll('.tree details:not(.lemmas):has(.drawn-case)')) fold.open = true;
}

/** Draws the cycle of a step of the tree. */
function drawCycle(at) {
  markStep(at);
  const { step, cycle } = sheet.told.steps[at].closing, order = step === 'cycle' ? ' in memory order' : '';
  const end = `So ${eventWords(cycle[0].from)} would be before itself${order}. No order allows that.`, panelOf = () => new CyclePanel(sheet.programs, cycle, { end, offer: neededPart(sheet) });
  fill(query('#states .drawn'), drawExecution(sheet.programs, cycle, cycle, panelOf));
  for (const button of queryAll('[data-cycle]')) button.ariaPressed = String(Number(button.dataset.cycle) === at);
}

/** Asks why, by one click from a run. */
const askWhy = () => ask('why');
