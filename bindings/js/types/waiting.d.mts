/**
 * What is used of an AbortSignal.
 * @typedef {object} Signal
 * @property {boolean} aborted
 * @property {any} reason
 * @property {(type: 'abort', listener: () => void) => void} addEventListener
 * @property {(type: 'abort', listener: () => void) => void} removeEventListener
 */
/** Throws a signal's reason once it has aborted. */
export function mustGoOn(signal: any): void;
/** Settles as a promise does, or rejects for a signal's reason once that aborts. */
export function unlessAborted(promise: any, signal: any): any;
/** Waits until a promise settles, at most so many milliseconds. */
export function within(milliseconds: any, promise: any): Promise<any>;
/**
 * Calls something once all that runs in this turn of the event loop has run, and before its next: in Node after what
 * promises that settle meanwhile call, and elsewhere after what waits for those that have settled.
 */
export function afterTurn(call: any): void;
/** Drops what is read until the end. After `most` bytes it reads no more, and stays pending. */
export function drain(read: any, most?: number): Promise<void>;
/**
 * Work in turns: each begins once the one before has settled, and at once where there is none, unless its signal
 * has aborted before.
 */
export class Turns {
    /** Whether nothing is under way, and nothing waits. */
    get isIdle(): boolean;
    take(work: any, signal: any): Promise<any>;
    /** Takes a turn, where nothing is under way, until it is released. */
    hold(): void;
    release(): void;
    #private;
}
/**
 * Waits for promises, until it is ended: whatever waits rejects then, for that reason, and so does what would wait
 * later.
 */
export class Waiting {
    get isOver(): boolean;
    get reason(): any;
    end(reason: any): void;
    for(promise: any): Promise<any>;
    #private;
}
/** How long a channel that is closed waits for the other party to close the connection, in milliseconds. */
export const LINGER: 5000;
/** The longest time of a timer: a longer one would run out at once. */
export const LONGEST: number;
export function pause(milliseconds: any): Promise<any>;
export function turn(): Promise<any>;
/**
 * What is used of an AbortSignal.
 */
export type Signal = {
    aborted: boolean;
    reason: any;
    addEventListener: (type: 'abort', listener: () => void) => void;
    removeEventListener: (type: 'abort', listener: () => void) => void;
};
