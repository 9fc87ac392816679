export function mustBeOwn(mark: any): void;
/** What such a constructor is passed first. */
export const OWN: unique symbol;
