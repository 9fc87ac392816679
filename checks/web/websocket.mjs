// The server's end of a WebSocket (RFC 6455): as much as these checks need. There are no extensions, and pings aren't
// answered.
import { createHash } from 'node:crypto';

const [CONTINUED, TEXT, BINARY, CLOSE] = [0, 1, 2, 8];

/** A frame of a server, whose bytes aren't masked. */
function frame(opcode, bytes) {
  const { length } = bytes;
  const head = length < 126 ? Buffer.of(128 | opcode, length) : Buffer.alloc(length < 65536 ? 4 : 10);
  if (length >= 126) {
    head[0] = 128 | opcode;
    head[1] = length < 65536 ? 126 : 127;
    if (length < 65536) head.writeUInt16BE(length, 2);
    else head.writeBigUInt64BE(BigInt(length), 2);
  }
  return Buffer.concat([head, bytes]);
}

/** The first frame of these bytes, as `opcode`, `isLast`, `payload` and `size`; undefined where it isn't whole. */
function firstFrame(bytes) {
  if (bytes.length < 2) return undefined;
  const short = bytes[1] & 127;
  const from = { 126: 4, 127: 10 }[short] ?? 2;
  if (bytes.length < from + 4) return undefined;
  const length = short < 126 ? short : short === 126 ? bytes.readUInt16BE(2) : Number(bytes.readBigUInt64BE(2));
  if (bytes.length < from + 4 + length) return undefined;
  const payload = Uint8Array.from(bytes.subarray(from + 4, from + 4 + length));
  for (let n = 0; n < length; n += 1) payload[n] ^= bytes[from + n % 4];
  return { opcode: bytes[0] & 15, isLast: bytes[0] > 127, payload, size: from + 4 + length };
}

/** What NoiseSocket uses of a WebSocket, over a connection that was upgraded. */
export class ServerSocket extends EventTarget {
  readyState = 1;
  #socket;
  #held;
  #parts = [];

  constructor(socket, head) {
    super();
    this.#socket = socket;
    this.#held = head;
    socket.on('data', (data) => {
      this.#held = Buffer.concat([this.#held, data]);
      for (let next; (next = firstFrame(this.#held)) !== undefined;) {
        this.#held = this.#held.subarray(next.size);
        this.#take(next);
      }
    });
    socket.on('error', () => {});
    socket.on('close', () => this.#ended(false));
  }

  #take({ opcode, isLast, payload }) {
    if (opcode === CLOSE) {
      if (this.readyState === 1) this.#socket.end(frame(CLOSE, Buffer.from(payload)));
      this.#ended(true);
    } else if ([CONTINUED, TEXT, BINARY].includes(opcode)) {
      this.#parts.push(payload);
      if (!isLast) return;
      const data = Uint8Array.from(Buffer.concat(this.#parts.splice(0))).buffer;
      this.dispatchEvent(Object.assign(new Event('message'), { data }));
    }
  }

  #ended(wasClean) {
    if (this.readyState === 3) return;
    this.readyState = 3;
    this.dispatchEvent(Object.assign(new Event('close'), { wasClean }));
  }

  send(data) {
    this.#socket.write(typeof data === 'string' ? frame(TEXT, Buffer.from(data)) : frame(BINARY, data));
  }

  close() {
    if (this.readyState !== 1) return;
    this.readyState = 2;
    this.#socket.end(frame(CLOSE, Buffer.of(3, 232)));    // status 1000
  }

  /** Sends half of a frame, and breaks the connection. */
  cut() {
    this.#socket.write(frame(BINARY, Buffer.alloc(100)).subarray(0, 50), () => this.#socket.destroy());
  }
}

/** Calls `taken(socket, path)` for each WebSocket that connects to a server. */
export function takeWebSockets(server, taken) {
  server.on('upgrade', ({ headers, url }, socket, head) => {
    const accepted =
      createHash('sha1').update(`${headers['sec-websocket-key']}258EAFA5-E914-47DA-95CA-C5AB0DC85B11`).digest('base64');
    socket.write(
      'HTTP/1.1 101 Switching Protocols\r\nupgrade: websocket\r\nconnection: upgrade\r\n'
        + `sec-websocket-accept: ${accepted}\r\n\r\n`,
    );
    taken(new ServerSocket(socket, head), url);
  });
}
