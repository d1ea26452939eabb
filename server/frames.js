// Frames of WebSockets (RFC 6455). What many are told is framed once, and goes to each of them as it is, by one write.

/** The frame of a text from a server: whole, and not masked. */
export function frameOf(text) {
  const length = Buffer.byteLength(text), head = length < 126 ? 2 : length < 65_536 ? 4 : 10
  const frame = Buffer.allocUnsafe(head + length)
  frame[0] = 0x81
  frame[1] = head == 2 ? length : head == 4 ? 126 : 127
  if (head == 4) frame.writeUInt16BE(length, 2)
  else if (head == 10) frame.writeBigUInt64BE(BigInt(length), 2)
  frame.write(text, head)
  return frame
}
