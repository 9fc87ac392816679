/** A message after its length: its frame. NOISE_LENGTH where no frame has so many bytes. */
export function frameOf(message: any): any;
/**
 * What the library finds at the start of these bytes, of which it is shown so many: the message of a frame, or how
 * many more are wanted.
 */
export function findMessage(held: any, count: any): {
    wanted: any;
    used?: undefined;
    value?: undefined;
} | {
    wanted: number;
    used: any;
    value: any;
};
/** The message of a whole frame. */
export function messageOf(frame: any): any;
/** How many bytes a payload of one frame has at most. */
export const MOST: 65519;
/** Both directions of a stream. */
export class Stream extends Sealed {
    /** @private */
    private static kinds;
    /**
     * The frames of a payload that comes in an array of parts, as few as there can be, one after another in the same
     * memory: what `room` has for so many bytes, or their own. Of no bytes there is none, unless the library refuses
     * them.
     */
    write(parts: any, room: any): any[];
    /** The frame of the end. */
    end(): any;
    /**
     * What the library reads at the start of these bytes, of which it is shown so many: a payload, undefined for the
     * end, or how many more are wanted.
     */
    read(held: any, count: any): {
        wanted: any;
        used?: undefined;
        value?: undefined;
    } | {
        wanted: number;
        used: any;
        value?: undefined;
    } | {
        wanted: number;
        used: any;
        value: Uint8Array;
    };
    /** Whether a connection that ends with so many bytes left cuts the stream. */
    isCut(left: any): boolean;
    #private;
}
import { Sealed } from "./transport.mjs";
