// What can be refused, in words: the faults of `jk faults` and those of the library, and what the server answers.

const FAULTS = {
  1: ['Memory', 'out of memory'],
  2: ['Truncated', 'the file, a box or a tile-part is cut off, or EOC is missing at the end'],
  3: ['BadMarker', "a marker that isn't allowed here, a second one where one is allowed, or a required one is missing"],
  4: ['BadLength', "a segment's length contradicts its contents; Psot from 1 to 13; a length of SOP other than 4"],
  5: ['BadValue', "a field has a value that T.800 doesn't allow, or a segmentation symbol is wrong"],
  6: ['Unsupported', 'allowed by T.800, but not supported by jk'],
  7: ['Limit', 'past a limit of jk, such as on samples, coordinates, levels, bit-planes, packets or the length of '
    + 'a tile-part'],
  8: ['PacketHeader', 'a stuffed bit is 1, more zero bit-planes than Mb, a length field wider than 32 bits, '
    + 'or EPH is missing'],
  9: ['TooManyPasses', 'more coding passes of a code-block than its bit-planes have'],
  10: ['CodeOutOfInterval', 'the code value leaves the interval of the MQ coder'],
  11: ['MissingPackets', 'the tile-parts of a tile end with packets left, or a tile has no tile-part'],
  12: ['SurplusBytes', "bytes after a tile's last packet or after EOC"],
  13: ['BadBox', 'the structure of the JP2 boxes is broken'],
  16: ['BadWindow', 'a reduction past the least number of levels, or a window or reduced image without a sample'],
  17: ['NoSuchImage', "the name isn't listed"],
  20: ['Shelf', "the file can't be read"],
  65: ['Misfit', 'the samples are signed'],
};

// The faults that the server's replies stand for. Its 500 is that of a file that can't be read, or has changed.
const REPLIES = { 400: 16, 404: 17 };

// A fault, which is shown as it is told elsewhere: F2 Truncated, and why.
export class Fault extends Error {
  constructor(number) {
    const [name, cause] = FAULTS[number] ?? ['Unknown', 'a fault of another version'];
    super(number < 64 ? `F${number} ${name}: ${cause}` : `${name}: ${cause}`);
    this.number = number;
  }
}

// The bytes of a reply of the server, or why there are none.
export async function bytesAt(url) {
  return new Uint8Array(await (await replyAt(url)).arrayBuffer());
}

// A reply of the server, or why there is none.
export async function replyAt(url) {
  let reply;
  try {
    reply = await fetch(url);
  } catch {
    throw new Error("the server can't be reached");
  }
  if (reply.ok) return reply;
  if (reply.status in REPLIES) throw new Fault(REPLIES[reply.status]);
  if (reply.status === 500) throw new Error("the server can't read the file, or it has changed since the server began");
  throw new Error(`the server answers ${reply.status} ${reply.statusText}`);
}
