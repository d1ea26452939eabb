// Makes what the package has besides its sources: the built module, the types for CommonJS, and the licence. `npm pack` runs it.

import fs from "node:fs"

const here = new URL("./", import.meta.url)
const built = new URL("../../out/gezhufet.wasm", here)
if (!fs.existsSync(built)) {
  console.error("pack: out/gezhufet.wasm is not built; ./pm wasm builds it")
  process.exit(1)
}
fs.copyFileSync(built, new URL("gezhufet.wasm", here))
fs.copyFileSync(new URL("../../LICENSE", here), new URL("LICENSE", here))
// CommonJS has all but the two makers of lines.
const types = fs.readFileSync(new URL("index.d.ts", here), "utf8")
fs.writeFileSync(new URL("index.d.cts", here), types.replace(/\n\/\*\* The line that a talk begins with[^]*$/, ""))
