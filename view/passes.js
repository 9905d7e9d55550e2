'use strict';

// What loads passed so far: a list that grows with the order. Its items stay, so that a step costs what it adds.

/** The run in which cores step in turn and drain last, so that each load passes that can, with its choices; null where one stalls. */
function lateRun(programs, depth) {
  const wordsOf = (text, at, core) => [[at, `${core}s`], ...(/^MOV\s+\[/i.test(text) ? [[MOST.instructions, `${core}d`]] : [])];
  const words = programs.flatMap((program, core) => program.flatMap((text, at) => wordsOf(text, at, core))).sort(([one], [other]) => one - other);
  const choices = words.map(([, word]) => word).join(' '), input = `${inputOf('sweep')}${DIVIDING_LINE}\n${choices}\n`;
  const { status, text } = depth > 0 ? asked({ command: 'run', json: true, depth }, input) : {};
  const run = status === GOOD ? readLine(text.trim()) : null;
  return run?.choices.get('stalled') + run?.choices.get('unused') === 0 ? { run, choices } : null;
}

/** Choices of a run without store buffers, with a drain right after each store. */
function drainedAtOnce(programs, choices) {
  const places = programs.map(() => 0), isStore = core => /^MOV\s+\[/i.test(programs[core]?.[places[core]++]);
  return choices.split(' ').map(word => (isStore(coreOfChoice(word)) ? `${word} ${coreOfChoice(word)}d` : word)).join(' ');
}

class PassList {
  constructor(element) {
    Object.assign(this, { element, rows: [], none: html('li', {}), hasGrown: false });
    fill(element, this.none);
  }

  /** Shows what the first entries of an order passed. */
  show(order, count, hasEnded) {
    growRows(this.rows, order, count, entry => this.add(entry), ({ items }) => items.forEach(item => item.remove()));
    this.none.hidden = this.element.children.length > 1;
    putText(this.none, passesOf([], hasEnded ? undefined : 'None so far.')[0]);
  }

  add(entry) {
    const items = passSentences(entry).map(sentence => html('li', {}, sentence));
    this.element.append(...items);
    this.hasGrown ||= items.length > 0;
    return { entry, items };
  }

  /** Scrolls to the last item, where it is new. */
  keepInSight() {
    if (this.hasGrown) this.element.scrollTop = this.element.scrollHeight;
    this.hasGrown = false;
  }
}
