'use strict';

// Why what a condition asks for can't be, in words: the cases as a tree; and where it can be, the execution in which it is so.

const MODEL_NAMES = { tso: 'x86-TSO', sc: 'sequential consistency' };
const DEPTH_OF = { tso: 32, sc: 0 }; // of the buffers on which an execution's choices are run
const FEW_LEAVES = 16; // up to so many all cases are open at first

/** What an answer comes to, in sentences; `proposition` is the condition's text, with its quantifier. */
function reasonSentence({ asked, model, answer, leaves, verdict }, proposition) {
  const end = asked === null ? '' : ` in which ${proposition.replace(/^\s*(?:~\s*exists|exists|forall)\s*/, '')} is ${asked.truth}`;
  const found = answer === 'allowed' ? 'One is shown here.' : `There is none: ${leaves === 1 ? 'the one case ends' : `each of the ${leaves} cases ends`} in a contradiction.`;
  return `Asked: an execution of ${MODEL_NAMES[model]}${end}. ${found}${verdictWords(verdict)}`;
}

/** Herd's word on the whole condition; empty where the test has none. */
function verdictWords(verdict) {
  if (!verdict) return '';
  const claim = { '~exists': 'no run ends', forall: 'each run ends' }[quantifierOf(testNow())] ?? 'a run ends';
  return ` Verdict ${verdict}: the test claims that ${claim} so, which is ${verdict === 'Ok' ? 'true' : 'false'}.`;
}

const sourceText = source => (source === 'initial' ? 'the initial value' : `what ${source} writes`);
const eitherOf = words => listed(words, 'or');

/** What is left for the places of a proposition that can't hold. */
function falseSentence(places) {
  const bare = places.filter(([, words]) => words.length === 0).map(([place]) => placeName(place));
  if (bare.length > 0) return `It can't be: no word is left that ${eitherOf(bare)} could have at the end.`;
  const ends = places.map(([place, words]) => `${placeName(place)} ends as ${eitherOf(words.map(String))}`);
  return `Then ${listed(ends) || 'whatever is left'}, which isn't what ${isClaim(sheet.test) ? 'a counterexample needs' : 'is asked for'}.`;
}

const EVENT_FORM = 'P\\d:\\d+ (?:LR|LW|R|W) \\w+(?:=\\d+)?';

/** An event in words. */
function bareWords(text) {
  const { core, kind, location, value } = eventOf(text), locked = kind[0] === 'L' ? 'locked ' : '';
  const said = kind === 'F' ? 'fence' : kind.endsWith('R') ? `load of ${location}` : value === undefined ? `store to ${location}` : `store ${location}=${value}`;
  return `P${core}'s ${locked}${said}`;
}

/** An instruction without registers, of a locked one its location. */
const formOfCode = code => code.replace(/^(LOCK|XCHG).*(\[\w+\]).*/i, '$2').replace(/\b[A-Z]{3}\b(?!\])/gi, '');

/** Whether an event's core does the same in two places. */
const isTwice = ({ core, place }) => sheet.programs[core].map(formOfCode).filter((form, _, all) => form === all[place]).length > 1;

/** The same, with its code name where another one of its program or of the sheet has these words too. */
function eventWords(text) {
  sheet.events ??= [...new Set(JSON.stringify(sheet.told).match(new RegExp(EVENT_FORM, 'g')))].map(each => [nameOfEvent(each), bareWords(each)]);
  const words = bareWords(text), isOne = !isTwice(eventOf(text)) && sheet.events.every(([name, other]) => other !== words || name === nameOfEvent(text));
  return isOne ? words : `${words} (${text.split(' ')[0]})`;
}

/** What closes a case says. */
const CLOSING_SENTENCES = {
  cycle: ({ cycle }) => `It can't be: ${eventWords(cycle[0].from)} would be before itself in memory order.`,
  uniproc: ({ cycle }) => `It can't be: among the accesses to one location, ${eventWords(cycle[0].from)} would be before itself.`,
  between: ({ between, read }) => `It can't be: ${between} would come between the two parts of the locked instruction ${read.split(' ')[0]}.`,
  false: ({ places }) => falseSentence(Object.entries(places)),
  none: ({ question, of }) => `It can't be: ${(question === 'source' && skippedSaid(of)) || NO_ANSWERS[question](of)}.`,
  lemma: ({ lemma }) => `It can't be, by lemma ${lemma}.`,
};

/** What is left of a question that has no answer. */
const NO_ANSWERS = {
  source: read => `nothing is left that ${read} can read`,
  value: read => `no value is left that ${read} can return`,
  reader: word => `no locked instruction can read ${word.endsWith(' initial') ? `the initial value of ${word.split(' ')[0]}` : `what ${word} writes, and it isn't the last write`}`,
  last: location => `no write to ${location} can be the last one`,
};

/** The word that an operand has at a place of a core's program, or null where it depends on the run. */
function wordAt({ programs, start }, core, place, operand) {
  const [, number] = /^\$(-?\d+)$/.exec(operand) ?? [];
  if (number !== undefined) return Number(number) >>> 0;
  const at = programs[core].slice(0, place).findLastIndex(text => writtenBy(text).includes(operand));
  const [, word] = at < 0 ? [] : /^MOV \w+,\$(-?\d+)$/.exec(programs[core][at]) ?? [];
  return at < 0 ? start.cores[core].registers[operand] ?? null : word === undefined ? null : Number(word) >>> 0;
}

/** Whether an instruction writes no word of a location that is this one, where it's certain: it stores another, or it compares with this one and writes another. */
function writesNone(read, core, place, location, word) {
  const text = read.programs[core][place], [, name, of, operand] = /^(MOV|XCHG|LOCK \w+) \[(\w+)\](?:,(\S+))?$/.exec(text) ?? [];
  if (of !== location) return !text.includes(`[${location}]`) || /^MOV \w+,\[/.test(text);
  const written = operand === undefined ? null : wordAt(read, core, place, operand), isOther = written !== null && written !== word;
  return isOther && (name === 'LOCK CMPXCHG' ? wordAt(read, core, place, 'EAX') === word : ['MOV', 'XCHG'].includes(name));
}

/** Why nothing is left that a locked instruction can read, where another one has to read the same word too: the initial one, which nothing writes. */
function skippedSaid(of) {
  const { kind, location, value } = eventOf(of), { steps } = sheet.told, { programs, start } = sheet.read, word = Number(value);
  const given = steps.find(({ step }) => step === 'given')?.facts ?? [];
  const other = given.find(fact => fact !== of && LOCKED_READ.test(fact) && eventOf(fact).location === location && eventOf(fact).value === value);
  if (kind !== 'LR' || value === undefined || !other || start.memory[location] !== word) return null;
  const isOnly = programs.every((program, core) => program.every((_, place) => writesNone(sheet.read, core, place, location, word)));
  return isOnly ? `${listed([other, of].toSorted())} may each read only the initial ${word}, and the later would skip the first one's write` : null;
}

const LOCKED_READ = /^P\d:\d+ LR \w+=\d+$/;

/** What a step of a reason says. */
const STEP_SENTENCES = {
  case: ({ answers, closing }) => `${caseWords(answers)}${closing ? `: ${lowered(closingSentence(closing))}` : ''}`,
  so: ({ answers, closing }) => `So ${answersWords(answers)}${closing ? `: ${lowered(closingSentence(closing))}` : '.'}`,
  endcases: () => 'No other case is left.',
  given: ({ facts }) => `Asked for: ${listed(facts.map(factWords))}.`,
  never: ({ lemma, facts }) => `Lemma ${lemma}: it can't be that ${listed(facts.map(factWords))}.`,
  leaf: ({ closing }) => closingSentence(closing),
};

const factForm = form => new RegExp(`^${form.replaceAll('EVENT', EVENT_FORM)}$`);

/** What a fact says, by its form; any other one is a proposition. */
const FACTS = [
  [factForm('(EVENT) (not )?from (initial|EVENT)'), (read, not, source) => `${read} ${not ? 'doesn\'t read' : 'reads'} ${sourceText(source)}`],
  [factForm('(EVENT) before (EVENT)'), (first, second) => `${first} reaches memory before ${second}`],
  [factForm('(EVENT) (not )?last'), (write, not) => `${write} is ${not ? 'not ' : ''}the last write to its location`],
  [factForm('(P\\d:\\d+ L?R \\w+)(=| not )(\\d+)'), (read, sign, word) => `${read} ${sign === '=' ? 'returns' : 'doesn\'t return'} ${word}`],
  [factForm('(\\d:\\w+|\\w+)(=| not )(\\d+)'), (place, sign, word) => `${placeName(place)} ${sign === '=' ? 'ends' : 'doesn\'t end'} as ${word}`],
];

/** A fact in words. */
function factWords(text) {
  const [form, words] = FACTS.find(([each]) => each.test(text)) ?? [];
  return form ? words(...form.exec(text).slice(1)) : `${text} is true`;
}

/** Answers to a question in words: one of these, each all of its facts. */
function answersWords(answers) {
  const words = answers.map(facts => listed(facts.map(factWords)));
  return answers.some(facts => facts.length > 1) ? words.join('; or ') : eitherOf(words);
}

const READS_FROM = factForm('(EVENT) from (initial|EVENT)');

/** The answers that a case takes; all that one read can read are listed. */
function caseWords(answers) {
  const reads = answers.map(facts => (facts.length === 1 ? READS_FROM.exec(facts[0]) : null)), read = reads[0]?.[1];
  const isOne = answers.length > 1 && read && reads.every(found => found?.[1] === read);
  return isOne ? `Whichever of these ${read} reads, ${eitherOf(reads.map(([, , source]) => sourceText(source)))}` : `If ${answersWords(answers)}`;
}

const lowered = sentence => sentence[0].toLowerCase() + sentence.slice(1);

const placeName = place => place.replace(/^(\d):(\w+)$/, 'P$1\'s $2');

/** A step of a newer module: its name and what it holds. */
const plainStep = ({ step: name, depth, ...held }) => `${name}: ${Object.values(held).map(value => (typeof value === 'string' ? value : JSON.stringify(value))).join(' ')}`;
const sentenceBy = (sentences, step) => sentences[step.step]?.(step) ?? plainStep(step);
const stepSentence = step => sentenceBy(STEP_SENTENCES, step).replace(new RegExp(EVENT_FORM, 'g'), eventWords);
const closingSentence = closing => sentenceBy(CLOSING_SENTENCES, closing);

/** The steps as a tree: a lemma, and a case that its line doesn't close, have in `parts` what is told of them. */
function treeOf(steps) {
  const roots = [], open = [roots]; // `open[depth]` takes what comes at this depth
  for (const step of steps) {
    const hasPart = step.step === 'never' || (step.step === 'case' && !step.closing), node = hasPart ? { step, parts: [] } : { step }, depth = step.depth ?? 0;
    open.length = depth + 1;
    open[depth].push(node);
    if (hasPart) open.push(node.parts);
  }
  return roots;
}

/** The cycles of a reason, each with the number of its step. */
const cyclesOf = steps => steps.map(({ closing }, at) => ({ cycle: closing?.cycle, at })).filter(({ cycle }) => cycle);

/** A tree as nested lists, of which each case folds. A cycle has a button that draws it. */
function treeList(nodes, steps, isOpen) {
  return html('ul', 'cases', ...nodes.map(({ step, parts }) => {
    if (parts) return html('li', {}, html('details', isOpen ? { open: '' } : {}, html('summary', {}, stepSentence(step)), treeList(parts, steps, isOpen)));
    const at = steps.indexOf(step);
    const draw = step.closing?.cycle ? [' ', html('button', { 'data-cycle': at, 'aria-pressed': 'false' }, 'Draw it')] : [];
    return html('li', { class: `step-${step.step}`, 'data-step': at }, stepSentence(step), ...draw);
  }));
}

/** The edges that an execution's sources and coherence tell; after a read come the writes that overwrite what it returned. */
function edgesOf({ sources, coherence }) {
  const order = Object.values(coherence).flatMap(each => each.slice(1).map((to, at) => ({ from: each[at], relation: 'co', to })));
  const reads = sources.flatMap(({ read, write }) => {
    const own = coherence[eventOf(read).location] ?? [], next = write === 'initial' ? own[0] : own[own.indexOf(write) + 1];
    const isOwn = next?.split(' ')[0] === read.split(' ')[0];
    return [...(write === 'initial' ? [] : [{ from: write, relation: 'rf', to: read }]), ...(next === undefined || isOwn ? [] : [{ from: read, relation: 'fr', to: next }])];
  });
  return [...order, ...reads];
}

/** By which relation an event is before a later one of its core: `unkept` where nothing keeps a store before a load. */
function orderInProgram(from, to, programs) {
  if (!['W', 'LW'].includes(from.kind) || !['R', 'LR'].includes(to.kind)) return 'po';
  const between = programs[from.core].slice(from.place + 1, to.place);
  if (from.kind === 'LW' || to.kind === 'LR' || between.some(isLocked)) return 'implied';
  if (between.some(text => /^MFENCE\b/i.test(text))) return 'mfence';
  return from.location === to.location ? 'po' : 'unkept';
}

/** The edges of program order between the events of others. */
function edgesOfPrograms(edges, programs) {
  const events = eventsOf(edges), isPart = (one, other) => other.place === one.place && one.kind < other.kind; // LR, LW
  const isLater = (one, other) => other.core === one.core && (other.place > one.place || isPart(one, other));
  const edgeOf = (from, to) => ({ from: from.text, relation: orderInProgram(from, to, programs), to: to.text });
  return events.flatMap(from => events.filter(to => isLater(from, to)).map(to => edgeOf(from, to)));
}

/** A shortest way from an event back to itself, by the steps that leave each event, or null. */
function wayBack(start, leaving) {
  const came = new Map(), reached = [start];
  const reach = step => {
    if (came.has(step.to)) return;
    came.set(step.to, step);
    reached.push(step.to);
  };
  for (const event of reached) leaving.get(event)?.forEach(reach);
  if (!came.has(start)) return null;
  const way = [came.get(start)];
  while (way[0].from !== start) way.unshift(came.get(way[0].from));
  return way.map(({ edge }) => edge);
}

/** The edges to the writes that come later than that to which an edge of coherence or from a read leads. */
function laterEdges({ from, relation, to }, edges) {
  const next = ['co', 'fr'].includes(relation) && edges.find(each => each.relation === 'co' && each.from === to);
  return next ? [{ from, relation, to: next.to }, ...laterEdges({ from, relation, to: next.to }, edges)] : [];
}

const FAR = 100; // more than a cycle's edges
const NO_STEP = ({ edge, from, to }) => from[1] === to[1] && (['rf', 'co', 'fr'].includes(edge.relation) || (edge.relation === 'po' && /W$/.test(from) && /R$/.test(to)));

/** A shortest cycle with as many as can be of the loads at the places `wanted` (`isShort`: with any); null where none has any. It comes to each core
 * once, first to the least. */
function cycleThrough(wanted, leaving, isShort) {
  const isAsked = name => Number(isLoad(name) && isNamed(name, wanted)), coreOfName = name => Number(name[1]);
  const rank = ({ asked, edges }) => (isShort ? asked - FAR * edges.length : FAR * asked - edges.length), isBetter = (one, other) => other === null || rank(one) > rank(other);
  let best = null;
  for (const start of leaving.keys()) {
    const known = new Map();
    const wayFrom = (name, cores, isMoved) => {
      const key = `${name} ${cores} ${isMoved}`;
      if (known.has(key)) return known.get(key);
      let way = null;
      for (const step of leaving.get(name)?.filter(each => !NO_STEP(each)) ?? []) {
        const core = coreOfName(step.to), isOwn = core === coreOfName(name);
        const rest = isOwn ? !isMoved && wayFrom(step.to, cores, true)
          : step.to === start ? { asked: 0, edges: [] } : core > coreOfName(start) && (cores >> core) % 2 === 0 && wayFrom(step.to, cores + 2 ** core, false);
        const found = rest && { asked: rest.asked + isAsked(step.to), edges: [step.edge, ...rest.edges] };
        if (found && isBetter(found, way)) way = found;
      }
      known.set(key, way);
      return way;
    };
    const way = wayFrom(start, 0, false);
    if (way?.asked > 0 && isBetter(way, best)) best = way;
  }
  return best?.edges ?? null;
}

const isLoad = text => nameOfEvent(text).endsWith('R');
const isNamed = (text, wanted) => wanted.includes(text.split(' ')[0]);

/** A cycle of an execution's edges and program order, or an empty one: of what is `wanted` alone (loads, orders of writes), else with as much of it as
 * can be, else a shortest. It begins with a store and one of the `loads` that passed it. */
function forbiddenCycle(edges, programs, loads, wanted) {
  const stepOf = edge => ({ edge, from: nameOfEvent(edge.from), to: nameOfEvent(edge.to) }), steps = [...edges, ...edgesOfPrograms(edges, programs)].map(stepOf);
  const leavingOf = some => new Map(some.map(({ from }) => [from, some.filter(step => step.from === from)])), leaving = leavingOf(steps);
  const shortest = () => [...leaving.keys()].map(event => wayBack(event, leaving)).filter(Boolean).sort((one, other) => one.length - other.length)[0];
  const far = [...steps, ...steps.flatMap(({ edge }) => laterEdges(edge, edges)).map(stepOf)], isMany = edges.length > MANY_EDGES;
  const isTold = ({ edge, from, to }) => [from, to].every(name => !isLoad(name) || isNamed(name, wanted)) && (edge.relation !== 'co' || isNamed(to, wanted));
  const cycle = cycleThrough(wanted, leavingOf(far.filter(isTold)), isMany) || cycleThrough(wanted, leavingOf(far), isMany) || (shortest() ?? []);
  const isSame = (entry, text) => nameOfEvent(entry.text) === nameOfEvent(text);
  const isPassed = ({ from, to }) => loads.some(load => isSame(load, to) && load.passed.some(store => isSame(store, from)));
  const unkept = cycle.filter(({ relation }) => relation === 'unkept');
  unkept.sort((one, other) => isPassed(other) - isPassed(one) || (one.from < other.from ? -1 : 1));
  const at = Math.max(0, cycle.indexOf(unkept[0]));
  return [...cycle.slice(at), ...cycle.slice(0, at)];
}

/** Whether a run's order is the execution of an answer: reads have the same sources, and writes to a location the same order. */
function isExecution(order, { sources, coherence }) {
  const found = new Map(order.map(entry => [nameOfEvent(entry.text), entry]));
  const writesTo = location => order.filter(entry => isWrite(entry) && entry.location === location).map(({ text }) => nameOfEvent(text));
  return sources.every(({ read, write }) => nameOfEvent(found.get(nameOfEvent(read))?.source?.text ?? 'initial') === nameOfEvent(write)) &&
    Object.entries(coherence).every(([location, writes]) => writes.map(nameOfEvent).join() === writesTo(location).join());
}

/** An execution in words: what each read returned, the order of writes, and what is left. */
function executionTables({ sources, coherence, values }) {
  const row = (name, ...cells) => html('tr', {}, html('th', { scope: 'row' }, name), ...cells.map(cell => html('td', 'wraps', cell)));
  return [
    tableOf('What each read returns', ['Read', 'Of'], sources.map(({ read, write }) => row(read, write === 'initial' ? 'the initial value' : write))),
    tableOf('In which order writes reach memory', ['Location', 'Writes'], Object.entries(coherence).map(([location, writes]) => row(location, writes.join(', ')))),
    tableOf('Final values', ['Place', 'Value'], Object.entries(values).map(([place, word]) => row(placeName(place), word))),
  ];
}
