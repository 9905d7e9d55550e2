'use strict';

// What the machine's words mean: one sentence each, which is shown where the pointer or the focus is.

const MEANINGS = {
  Program: 'The instructions of this core, from top to bottom. The marked one is next: step does it.',
  Registers: 'Values that belong to this core alone: a load puts what it reads there.',
  'Store buffer': 'A queue of this core\'s stores that memory has not seen. Only this core sees them. The oldest, at the right, drains first.',
  Cache: 'Copies of lines of memory, each in a state. A store can be written only while this core has the only copy.',
  Bus: 'All caches are on one bus: by it they ask for lines, and see what others ask for.',
  Memory: 'Each location\'s value, shared by all cores.',
  newest: 'A value that a cache has, and memory itself has not yet.',
  passed: 'A load passes a store that is earlier in its own program, if memory sees the load first. TSO allows it; sequential consistency doesn\'t.',
  'locked instruction': 'One that reads and writes a location in one step: XCHG, or one with LOCK. As a fence, it waits until its core\'s store buffer is empty.',
  order: 'The order in which memory sees loads, stores and fences of all cores: from top to bottom.',
  Under: 'TSO alone: this outcome needs store buffers. Sequential consistency has none like it.',
  Condition: 'Whether what the test asks for is true of this outcome.',
  exists: 'Asks whether a run ends so.',
  '~exists': 'Claims that no run ends so.',
  forall: 'Claims that each run ends so.',
  '/\\': 'And.',
  '\\/': 'Or.',
  seed: 'A number from which choices are drawn at random. The same seed draws the same choices.',
  exercise: 'One file of the whole page, with this test and your question: no choices, no list. All outcomes and why are there after an answer.',
  lecture: 'Large type. A clicker\'s keys, PageDown and PageUp, step through the tests that were added; without any, through this one and the next of the library.',
  beside: 'Another machine that makes the same choices, so that one sees what differs.',
  depth: 'How many stores wait at most in a core\'s store buffer. With 0 there is none: that is sequential consistency.',
  protocol: 'The rules by which caches keep their copies in step: MSI, MESI, MOESI or MOSI, after the states that a line has.',
  bus: 'Atomic: each access has the bus for its own step. Split: a core asks first, and completes the access in a later step.',
  sets: 'Into so many sets the lines of a cache are divided.',
  ways: 'So many lines a set of a cache can have.',
  words: 'So many neighbouring words one line of a cache has: x and y may share a line.',
  states: 'A search stops when it would have to keep more states of the machine than this.',
  cases: 'A proof stops when it would have to tell more cases apart than this.',
  model: 'x86-TSO has store buffers, sequential consistency has none.',
  M: 'Modified: this is the only copy, and memory may have older words.',
  O: 'Owned: others may have copies too, memory may have older words, and this copy supplies them.',
  E: 'Exclusive: this is the only copy, and memory has the same words.',
  S: 'Shared: others may have copies too.',
  I: 'Invalid: there is no copy here.',
  IS_D: 'There is no copy yet: GetS is on the bus, and the core waits for the words.',
  IM_D: 'There is no copy yet: GetM is on the bus, and the core waits for the words.',
  SM_D: 'There is a copy: GetM is on the bus, and the core waits until it may write.',
  GetS: 'GetS asks on the bus for a line to read.',
  GetM: 'GetM asks on the bus for a line to write: all other copies become invalid.',
  flush: 'A flush: this core sent its copy to memory, since another core reads the line.',
  forwards: 'Loads that read a store which waited in the buffer of their own core.',
  'write-back': 'A write-back: the line had to leave the cache. Memory had older words, so the words went to memory.',
};

/** What each kind of instruction does: its name among the words, how it is written, and its sentence. */
const INSTRUCTIONS = [
  ['a compare and exchange', /^LOCK\s+CMPXCHG\b/i, 'In one step: reads the location. If its word is that of EAX, it writes the register to it, and else the old word back. EAX gets the word that was read.'],
  ['an exchange and add', /^LOCK\s+XADD\b/i, 'In one step: reads the location and writes the sum of its word and the register. The register gets the word that was read.'],
  ['an exchange', /^XCHG\b.*\[/i, 'In one step, as with LOCK: reads the location and writes the register to it. The register gets the word that was read.'],
  ['a locked operation', /^LOCK\b/i, 'In one step: reads the location, computes, and writes it. No other core comes between, and the store buffer has to be empty before.'],
  ['a store', /^MOV\s+\[/i, 'A store: the value goes into the store buffer of this core, and to memory later, when it drains.'],
  ['a load', /^MOV\b.*\[/i, 'A load: the register gets the newest store to the location in its own core\'s buffer, and else what memory has.'],
  ['a fence', /^MFENCE\b/i, 'A fence: it waits until the store buffer of its core is empty. In C it is atomic_thread_fence(\u200bmemory_order_seq_cst).'],
  ['an instruction that does nothing', /^(NOP|PAUSE|LFENCE|SFENCE)\b/i, 'It does nothing. Under TSO neither do PAUSE, LFENCE and SFENCE.'],
  ['register arithmetic', /^/, 'Changes registers of this core alone. Memory and other cores don\'t see it.'],
];
for (const [name, , meaning] of INSTRUCTIONS) MEANINGS[name] = meaning;

const kindOfInstruction = text => INSTRUCTIONS.find(([, form]) => form.test(text))[0];

/** A word with its meaning at hover and focus; `shown` is what stands there, and `name` the word of the table. */
function withMeaning(attributes, name, shown, tag = 'span') {
  const meaning = MEANINGS[name];
  return html(tag, meaning === undefined ? attributes : { tabindex: 0, ...attributes, role: 'note', 'data-means': name, 'aria-label': `${shown}. ${meaning}` }, shown);
}

/** A sentence in which a condition's signs, and locked instructions, have their meanings. */
function explained(sentence, attributes = { tabindex: -1 }) {
  return sentence.split(/(~?exists(?= \()|forall(?= \()|\/\\|\\\/|locked instruction)/).map((part, at) => (at % 2 ? withMeaning(attributes, part, part) : part));
}

/** Puts such a sentence into an element, where it isn't that already. */
function putExplained(element, sentence) {
  if (element.textContent !== sentence) fill(element, ...explained(sentence));
}

/** Where the pointer was last. A browser also tells that it came to something when the page changed below it. */
const pointerWas = { x: -1, y: -1 };

/** Whether an event is one of a pointer that rests. */
function isAtRest({ type, screenX: x, screenY: y }) {
  if (!type.startsWith('pointer')) return false;
  const rests = pointerWas.x === x && pointerWas.y === y;
  Object.assign(pointerWas, { x, y });
  return rests;
}

const HEAVY = 9; // so many words count as much as a button, a buffer or memory

/** How high an explanation covers least: over its word, below it, or below what it names. */
function heightOfMeaning(word, { offsetWidth: width, offsetHeight: height }) {
  const [{ left, top, bottom }, next] = [word, word.nextElementSibling ?? word].map(boxOf);
  const taken = [...queryAll('button, .word, .buffer, .below, .program code')].filter(part => part.checkVisibility()).map(part => [boxOf(part), part.matches('button, .buffer, .below') && !part.contains(word) ? HEAVY : 1]);
  const covered = y => taken.reduce((sum, [part, weight]) => sum + (part.left < left + width && part.right > left && part.top < y + height && part.bottom > y) * weight, 0);
  return [top - height - 4, bottom + 4, next.bottom + 4].filter(y => y >= 0 && y + height <= innerHeight).sort((one, other) => covered(one) - covered(other))[0] ?? 0;
}

/** Shows near a word what it means, at the pointer or the focus. What changes under a pointer that rests does nothing. */
function showMeaning(event) {
  const word = event.target.closest?.('[data-means]'), box = byId('meaning');
  if (isAtRest(event) || (!word && box.dataset.by !== event.type)) return;
  box.hidden = !word;
  box.dataset.by = event.type;
  if (!word) return;
  box.textContent = MEANINGS[word.dataset.means];
  box.style.left = 0; // where it has its whole width
  box.style.left = `${Math.max(4, Math.min(boxOf(word).left, ROOT.clientWidth - box.offsetWidth - 4))}px`;
  box.style.top = `${heightOfMeaning(word, box)}px`;
}

for (const kind of ['pointerover', 'focusin']) on(document, kind, showMeaning);
for (const kind of ['focusout', 'resize', 'keydown', 'click']) on(window, kind, () => { byId('meaning').hidden = true; }, true);
on(document, 'pointermove', ({ screenX: x, screenY: y }) => Object.assign(pointerWas, { x, y }), { passive: true });

/** Down and up lead to the other words of the machine and the picture, all of which have one Tab stop; or of an answer. */
on(document, 'keydown', event => {
  const way = { ArrowDown: 1, ArrowUp: -1 }[event.key], group = way && event.target.matches('[data-means][tabindex]') && event.target.closest('main, #states');
  if (!group) return;
  const words = [...group.querySelectorAll('[data-means][tabindex]')].filter(word => word.checkVisibility());
  words.at((words.indexOf(event.target) + way) % words.length).focus();
  event.preventDefault();
});
