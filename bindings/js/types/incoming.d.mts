/** What comes, by `pull`, which gives the next bytes, or undefined once the connection has ended. */
export class Incoming {
    constructor(pull: any);
    /** How many bytes came and aren't used. */
    get left(): number;
    /** Throws once the connection breaks, or ends where nothing came that isn't used. It uses nothing itself. */
    watch(): Promise<void>;
    /**
     * What `look` makes of the first bytes, `{ value }`, or undefined where it needs more of them. `look(held,
     * count)` gets these bytes, and says `wanted`, how many more it needs, or else `used` and `value`. NOISE_TOO_LONG
     * where it needs more than `limit` in all.
     */
    found(look: any, limit?: number): {
        value: any;
    } | undefined;
    /**
     * The same, once enough came, or undefined where the connection has ended before that. `wait` passes a promise
     * on, and may end the waiting: no byte is lost then.
     */
    next(look: any, { limit, wait }?: {
        limit: any;
        wait?: ((promise: any) => any) | undefined;
    }): Promise<{
        value: any;
    } | undefined>;
    #private;
}
