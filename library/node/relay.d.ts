import type { Text } from './index.js';

/** Brings what each of its sites makes to the others: small, for tests and demonstrations, since whoever reaches it may read and write. It has a
 * text for each room, which `open` answers and in which it edits nothing; that of `Text.open` keeps the room. */
export class Relay {
    constructor(open: (room: string) => Text);
    /** The texts of the rooms, by their names. */
    readonly texts: Map<string, Text>;
    /** Has a socket of Node's package ws take part in a room. */
    connect(socket: any, room: string): void;
    /** Has those take part who come to a `WebSocketServer` of that package: a room is the path of the address. */
    serve(server: any): this;
    /** Closes sockets and texts; the server is the caller's. */
    close(): void;
}
