/**
 * The protocol name of a pattern's name.
 * @param {string} section
 * @returns {string}
 */
export function protocolName(section: string): string;
/** The bytes of a pattern: most handshakes have that of the one before. */
export function patternBytes(text: any): Uint8Array;
/** So many messages, as the library takes them. */
export function intervalOf(interval: any): any;
/**
 * The options themselves, where there are any: of a handshake, or else of a channel. One that is passed and would
 * be ignored is refused.
 */
export function optionsOf(options: any, ofChannel?: boolean): any;
/** Copies of the options, as far as they can be checked here: the library checks the rest. */
export function setupOf(options: any): {
    pattern: any;
    responder: any;
    prologue: Uint8Array;
    pskFor: any;
    staticKey: {
        pair: any;
        publicKey: Uint8Array;
    } | undefined;
    ephemeralKey: {
        pair: any;
        publicKey: Uint8Array;
    } | undefined;
    remoteStatic: Uint8Array | undefined;
    remoteEphemeral: Uint8Array | undefined;
    psks: Uint8Array[];
};
/** Starts a handshake at a place, and returns the library's code. `options` are those of `setupOf`. */
export function start(place: any, options: any, ephemeral: any, staticKey: any): any;
export function wholePattern(pattern: any): any;
export type HandshakeOptions = {
    /**
     * A protocol name, the name of a pattern alone, as XXpsk3, or a pattern text whose lines
     * end with a line feed.
     */
    pattern: string;
    responder?: boolean | undefined;
    /**
     * At most 65535 bytes, the same at both parties.
     */
    prologue?: Uint8Array | undefined;
    staticKey?: import("./keys.mjs").DH | undefined;
    /**
     * Drawn at the first message, where it isn't passed. It must
     * never have been used before.
     */
    ephemeralKey?: import("./keys.mjs").DH | undefined;
    /**
     * The other party's static key, where the pattern has it before the messages.
     */
    remoteStatic?: Uint8Array | undefined;
    remoteEphemeral?: Uint8Array | undefined;
    /**
     * 32 bytes for each psk token, in their order.
     */
    psks?: Uint8Array[] | undefined;
    /**
     * In place of `psks`: called at
     * each psk token with the other party's static key, it gives the secret of 32 bytes. The other party hasn't shown
     * yet that it has the private key. What it throws rejects `write` or `read`, and nothing is sent.
     */
    pskFor?: ((remoteStatic: Uint8Array) => Uint8Array | Promise<Uint8Array>) | undefined;
};
