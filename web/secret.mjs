// What may be a key: it goes into no address, no link and no storage. There is no DOM here.

/** What the page says of a text that may have one. */
export const SAYS = 'This text has 32 hex digits in a row, as a key or a hash has.';

/** Whether a text may have a key or a hash in it. No pattern has so many hex digits in a row. */
export const hasSecret = (text) => /[0-9a-f]{32}/i.test(text);
