/** Whether each party has a static key. */
export function staticKeysOf(pattern: any): {
    initiator: boolean;
    responder: boolean;
};
/**
 * The messages of a pattern, of a name or a text: who sends each, its tokens, its pieces in order, and its length
 * with an empty payload. Of a text that isn't valid it throws what `checkPattern` says.
 * @param {string} pattern
 * @returns {Layout}
 */
export function layout(pattern: string): Layout;
export type Role = 'initiator' | 'responder';
/**
 * A part of a message.
 */
export type Piece = {
    kind: 'e' | 's' | 'ee' | 'es' | 'se' | 'ss' | 'psk' | 'payload';
    /**
     * Where it begins in the message.
     */
    from: number;
    /**
     * In bytes: 0 for a DH or psk token.
     */
    length: number;
    /**
     * Its last 16 bytes are a tag then.
     */
    encrypted: boolean;
};
export type Message = {
    from: Role;
    tokens: string[];
    /**
     * Of each token, and last of the payload.
     */
    pieces: Piece[];
    /**
     * With an empty payload.
     */
    length: number;
};
export type Layout = {
    /**
     * Whether it is one message alone: only the initiator sends afterwards (Noise, 7.4).
     */
    oneWay: boolean;
    /**
     * How many psk tokens there are.
     */
    psks: number;
    /**
     * The tokens of the pre-messages.
     */
    before: Record<Role, string[]>;
    /**
     * Which party has a static key.
     */
    static: Record<Role, boolean>;
    messages: Message[];
};
