/** The stream of a channel over a carrier of which Node's stream, if there is one, is `below`. */
export function duplexOf(channel: any, below: any, sides: any): any;
/** Names a method of the stream that only this package calls. */
export const PASS_ON: unique symbol;
