'use strict';

// A page in another page: with `embed=1` in the address of a test there are no tools and no words about the page itself.

const isEmbedded = address => new URLSearchParams(address).get('embed') === '1';

/** Goes by the address whether the page is part of another. */
function putEmbedding(address) {
  putClass(ROOT, 'embedded', TEST_ADDRESS.test(address) && isEmbedded(address));
}
