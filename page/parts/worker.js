// ---- The worker of the proved check. This function is also its text, so it uses nothing of the page.

// Checks a sheet by a fresh instance of the compiled module. The texts are bytes, and `held` is null where there are no rows. The status
// is 0 (right) or 1 (wrong), with the verdict; 2 (no set-up) or 3 (no rows of this set-up), with a report of the fault; or 4 (memory).
async function provedCheck(module, { setup, sheet, held }) {
  const { memory, room, check_sheet: check } = /** @type {any} */ (await WebAssembly.instantiate(module)).exports;
  const taken = (size) => {
    const at = room(BigInt(size));
    if (at === 0n) throw new RangeError('memory');
    return at;
  };
  const handed = (bytes) => {
    const at = taken(bytes.length);
    new Uint8Array(memory.buffer).set(bytes, Number(at));
    return [at, BigInt(bytes.length)];
  };
  const given = [...handed(setup), ...handed(sheet), ...handed(held ?? new Uint8Array(0)), Number(held !== null)];
  const count = taken(8);
  // At status 5 the room was too small, and the count is what it has to be.
  for (let size = 65536, tries = 0; tries < 2; tries += 1) {
    const answer = taken(size);
    const status = check(...given, answer, BigInt(size), count);
    const length = Number(new DataView(memory.buffer).getBigUint64(Number(count), true));
    if (status !== 5) return { status, text: new Uint8Array(memory.buffer).slice(Number(answer), Number(answer) + length) };
    size = length;
  }
  throw new RangeError('room');
}

const WORKER = `'use strict';
${provedCheck}
onmessage = ({ data: { bytes, texts } }) => WebAssembly.compile(bytes).then((module) => provedCheck(module, texts)).then(
  (answer) => postMessage({ answer }), (fault) => postMessage({ fault: String(fault) }));
`;
