/**
 * The parameters and the result of each export: p is a pointer or a size, c a count of messages, n a nonce, i a number
 * of 32 bits or less.
 * @type {Record<string, string>}
 */
export const PROTOTYPES: Record<string, string>;
