// How the pieces of a message are called, and of which kind each is. There is no DOM here.
export const TITLES = {
  e: 'ephemeral key', s: 'static key, clear', sealed: 'static key, encrypted', tag: 'tag', payload: 'payload, clear',
  nonce: 'nonce', text: 'payload, encrypted',
};

/** The kind of a piece of the plan: with what is encrypted apart. */
export const kindOf = ({ kind, sealed }) => (sealed && { s: 'sealed', payload: 'text' }[kind]) || kind;
