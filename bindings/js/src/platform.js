// What node has and a page lacks. Nothing of node's is imported by name, so that the package loads in a page and in a bundle as it is.

function builtin(name) {
  if (typeof process == "undefined") return null
  const found = process.getBuiltinModule?.(name)
  return found ?? (process.versions?.node ? import(/* webpackIgnore: true */ /* @vite-ignore */ name) : null)
}

/// The bytes of a file, by its address, or null where the address is no file's.
export async function readFile(url) {
  const fs = url.protocol == "file:" ? await builtin("fs") : null
  return fs && fs.promises.readFile(url)
}

/// A CommonJS module by the address of its file, or null where it is not there or this is no node.
export async function requireFile(url) {
  const [fs, module, {fileURLToPath}] = [await builtin("fs"), await builtin("module"), await builtin("url") ?? {}]
  if (!fs || url.protocol != "file:" || !fs.existsSync(url)) return null
  return module.createRequire(url)(fileURLToPath(url))
}

// node reads a text of bytes faster by its Buffer.
const isNode = typeof process != "undefined" && Boolean(process.versions?.node) && typeof Buffer != "undefined"
const decoder = new TextDecoder()

/// So many bytes of a buffer, for `textOf`.
export const viewOf = (buffer, at, length) => (isNode ? Buffer.from(buffer, at, length) : new Uint8Array(buffer, at, length))

/// The first bytes of a view, which are UTF-8, as a text.
export const textOf = (view, length) => (isNode ? view.utf8Slice(0, length) : decoder.decode(view.subarray(0, length)))
