// Constructors that only this package calls: `new` of anything else throws, and makes no object.

/** What such a constructor is passed first. */
export const OWN = Symbol('own');

export function mustBeOwn(mark) {
  if (mark !== OWN) throw new TypeError('Illegal constructor: other calls make such objects');
}
