import type { Presence, Text } from './index.js';

export interface ProviderOptions {
    presence?: Presence<any>;
    /** What keeps the text, if not in a file: nothing is sent before that has it. */
    store?: { kept(): Promise<void> };
    /** The page's, or that of the package ws, unless it is given. */
    WebSocket?: any;
    /** How many milliseconds are waited before a second try, 250, and at most, 30,000. */
    least?: number;
    most?: number;
    /** Whether it is to connect at once. */
    connect?: boolean;
}

/** Brings a text, and who is there, to others by way of a relay. It connects again by itself, after waits that grow, and gives and gets what was
 * made meanwhile, by fronts. What others made comes with this provider as the origin. */
export class WebSocketProvider {
    constructor(text: Text, url: string, options?: ProviderOptions);
    /** `refused` is for good: `error` is a `FrontsDiffer`. */
    readonly status: 'offline' | 'connecting' | 'online' | 'refused';
    /** Whether all has come that the relay had as it was reached. */
    readonly isSynced: boolean;
    /** What went wrong last, until it goes on. */
    readonly error: Error | undefined;
    connect(): void;
    /** Is away until `connect` is called. */
    disconnect(): void;
    /** Calls a listener when one of these changes. */
    subscribe(listener: (provider: WebSocketProvider) => void): () => void;
    /** Ends it, and says by way of presence that one leaves. */
    close(): void;
}
