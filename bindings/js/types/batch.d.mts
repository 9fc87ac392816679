/** How many bytes payloads of one batch have together, at most. */
export const SHARED: number;
export class Batch {
    /** Whether the stream ends after it. */
    isLast: boolean;
    /** Settles once it has left. */
    sent: Promise<any>;
    resolve: ((value: any) => void) | undefined;
    reject: ((reason?: any) => void) | undefined;
    hasRoom(size: any): boolean;
    /** Copies a payload, which may change afterwards. */
    add(payload: any): void;
    get bytes(): Uint8Array;
    /** Overwrites the copies, and lets the next batch take their memory. */
    dispose(): void;
    #private;
}
