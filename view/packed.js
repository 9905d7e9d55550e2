'use strict';

// What the page has packed: the module, texts and its own parts. They are packed by gzip, and stand as texts in base 91.

/** The letters by their values: all that can be printed but what ends a text or begins an element of a page. */
const LETTERS = Array.from({ length: 95 }, (_, at) => String.fromCharCode(at + 32)).filter(letter => !'"\'<\\'.includes(letter));
const BITS = { pair: 13, lone: 6 };

/** The bytes of a text: each two letters are 13 bits, and one that is left is 6. */
function bytesIn(text) {
  const values = new Uint8Array(128), { length } = text, data = new Uint8Array(BITS.pair * (length >> 1) + BITS.lone * (length % 2) >> 3);
  LETTERS.forEach((letter, value) => { values[letter.charCodeAt(0)] = value; });
  let word = 0, held = 0, next = 0;
  for (let at = 0; at < length; at += 2) {
    const first = values[text.charCodeAt(at)], isPair = at + 1 < length, width = isPair ? BITS.pair : BITS.lone;
    word = word << width | (isPair ? LETTERS.length * first + values[text.charCodeAt(at + 1)] : first);
    for (held += width; held >= 8; held -= 8) data[next++] = word >> held - 8;
    word &= (1 << held) - 1;
  }
  return data;
}

/** The bytes that were packed. */
async function unpacked(text) {
  const bytes = new Blob([bytesIn(text)]).stream().pipeThrough(new DecompressionStream('gzip'));
  return new Uint8Array(await new Response(bytes).arrayBuffer());
}

/** The value of a text of JSON that was packed. */
const openedJson = async text => JSON.parse(new TextDecoder().decode(await unpacked(text)));
