'use strict';

// What the module answers: the proved code, by its one export.

/** A module of WebAssembly that answers as the program does. An instance is thrown away after a trap, and the next call has a new one. */
class Tso {
  static COMMANDS = ['run', 'sweep', 'check', 'witness', 'tables', 'outcomes', 'trace', 'step', 'why', 'counts', 'counted'];
  static PROTOCOLS = ['msi', 'mesi', 'moesi', 'mosi'];
  static BUSES = ['atomic', 'split'];
  static MODELS = ['tso', 'sc'];
  static SHOWN = ['condition', 'registers', 'all'];
  static INSTRUCTIONS = ['basic', 'all'];
  static DEFAULTS = {
    command: 'run', protocol: 'msi', bus: 'atomic', depth: 4, sets: 1, ways: 2, words: 1, json: false,
    from: 0, seeds: 10, length: 1000, states: 1000000, cases: 100000, model: 'tso',
    show: 'condition', assert: false, instructions: 'all',
  };
  static STATUS = { good: 0, refused: 1, nothingAsked: 2, unended: 3, invalid: 4, noMemory: 5 };

  static async of(bytes) {
    return new Tso(await WebAssembly.compile(bytes));
  }

  constructor(module) {
    this.module = module;
    this.renew();
  }

  renew() {
    this.exports = new WebAssembly.Instance(this.module, {}).exports;
    this.sizes = [1 << 16, 1 << 10];
  }

  /** The answer to an input (bytes or a text) under these options, else the defaults: its text, the hint beside it, the command's exit status (2: an
   * option is outside its limits, 5: memory was refused). Throws where the module trapped. */
  answer(options, input) {
    const bytes = typeof input === 'string' ? new TextEncoder().encode(input) : input;
    try {
      return this.tried({ ...Tso.DEFAULTS, ...options }, bytes);
    } catch (fault) {
      this.renew();
      throw fault;
    }
  }

  tried(options, bytes) {
    const places = [];
    const room = size => {
      const place = this.exports.room(BigInt(Math.max(size, 1)));
      if (place !== 0n) places.push(place);
      return place;
    };
    try {
      const asked = room(32), input = room(bytes.length), told = room(24);
      const texts = this.sizes.map(room);
      if (places.length < 5) return { status: Tso.STATUS.noMemory, text: '', hint: '' };
      this.writeAsked(Number(asked), options);
      new Uint8Array(this.exports.memory.buffer).set(bytes, Number(input));
      this.exports.page_answer(asked, input, BigInt(bytes.length), texts[0], BigInt(this.sizes[0]), texts[1], BigInt(this.sizes[1]), told);
      const { lengths, status, isWhole } = this.readTold(Number(told));
      if (isWhole) return { status, text: this.textAt(texts[0], lengths[0]), hint: this.textAt(texts[1], lengths[1]) };
      if (lengths.every((length, which) => length <= this.sizes[which])) return { status, text: '', hint: '' };
      this.sizes = this.sizes.map((size, which) => Math.max(size, lengths[which]));
    } finally {
      places.forEach(this.exports.let_go);
    }
    return this.tried(options, bytes);
  }

  writeAsked(place, options) {
    const view = new DataView(this.exports.memory.buffer, place, 32);
    const { command, protocol, bus, depth, sets, ways, words, json, from, seeds, length, states, cases, model, show, assert, instructions } = options;
    const small = [Tso.COMMANDS.indexOf(command), Tso.PROTOCOLS.indexOf(protocol), Tso.BUSES.indexOf(bus), depth, sets, ways, words];
    small.forEach((number, at) => view.setUint8(at, Number.isInteger(number) && number >= 0 && number < 255 ? number : 255));
    view.setUint8(7, json ? 1 : 0);
    [from, seeds, length, states, cases].forEach((number, at) => view.setUint32(8 + 4 * at, number, true));
    view.setUint8(28, Tso.MODELS.indexOf(model) & 255);
    view.setUint8(29, Tso.SHOWN.indexOf(show) & 255);
    view.setUint8(30, assert ? 1 : 0);
    view.setUint8(31, Tso.INSTRUCTIONS.indexOf(instructions) & 255);
  }

  readTold(place) {
    const view = new DataView(this.exports.memory.buffer, place, 24);
    const lengths = [0, 8].map(at => Number(view.getBigUint64(at, true)));
    return { lengths, status: view.getUint8(16), isWhole: view.getUint8(17) === 1 };
  }

  textAt(place, length) {
    return new TextDecoder().decode(new Uint8Array(this.exports.memory.buffer, Number(place), length));
  }
}

const { good: GOOD, refused: REFUSED, unended: UNENDED } = Tso.STATUS;
