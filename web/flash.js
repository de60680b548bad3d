// Reads the contents of a flash for the picture, by docs/FORMATS.md. The library decides by its own reading.

const MAGIC = [0x77, 0xc2, 0x95, 0xf3, 0x60, 0xd2, 0xef, 0x7f, 0x35, 0x52, 0x50, 0x0f, 0x2c, 0xb6, 0x79, 0x80];
const KINDS = ["", "Steady", "Swap", "Settle", "Trial", "Back", "BackSettle"];

const isErased = (bytes) => bytes.every((it) => it === 0xff);
const isSet = (bytes, at) => !isErased(bytes.subarray(at, at + 8));
const little = (bytes, at) => bytes[at] + bytes[at + 1] * 2 ** 8 + bytes[at + 2] * 2 ** 16 + bytes[at + 3] * 2 ** 24;

/** The parts of a flash, in the order of their addresses. */
export function partsOf({ sectorSize, sectors }) {
  const parts = [];
  let sector = 0;
  const part = (it, count) => {
    parts.push({ ...it, at: sector * sectorSize, sectors: count });
    sector += count;
  };
  for (const side of [0, 1]) {
    sectors.forEach((count, image) => {
      part({ kind: "slot", image, side }, count);
      part({ kind: "trailer", image, side }, 1);
    });
  }
  part({ kind: "scratch" }, 1);
  part({ kind: "log" }, 3);
  return parts;
}

/** Remembers the sectors of the images that were made, to recognize each at any place. */
export class Known {
  constructor(sectorSize) {
    this.sectorSize = sectorSize;
    this.names = new Map();
  }

  add(file, name) {
    for (let at = 0; at < file.length; at += this.sectorSize) {
      const sector = new Uint8Array(this.sectorSize).fill(0xff);
      sector.set(file.subarray(at, at + this.sectorSize));
      this.names.set(sector.join(), name);
    }
  }

  /** `{ image, version }` of a sector, "erased", or "torn" for any other bytes. */
  of(sector) {
    return isErased(sector) ? "erased" : this.names.get(sector.join()) ?? "torn";
  }
}

/** Describes a trailer in a few words. */
export function trailerWords(bytes, sectors) {
  const end = bytes.length;
  const magic = bytes.subarray(end - 16);
  const count = Array.from({ length: 3 * sectors }, (_, i) => isSet(bytes, 8 * i)).indexOf(false);
  const words = [];
  if (MAGIC.every((it, i) => it === magic[i])) words.push("magic");
  else if (!isErased(magic)) words.push("torn magic");
  if (isSet(bytes, end - 24)) words.push("ok");
  if (isSet(bytes, end - 32)) words.push("done");
  if (isSet(bytes, end - 48)) words.push(`${little(bytes, end - 48)} bytes`);
  if (isSet(bytes, end - 56)) words.push("withdrawn");
  const steps = count < 0 ? 3 * sectors : count;
  if (steps) words.push(`${steps} step${steps === 1 ? "" : "s"}`);
  return words;
}

/** The state of the log, and how many records each of its sectors has. */
export function logOf(bytes, sectorSize) {
  const sectors = [0, 1, 2].map((i) => bytes.subarray(i * sectorSize, (i + 1) * sectorSize));
  const places = sectorSize / 64 - 1;
  const closed = sectors.map((it) => isSet(it, sectorSize - 8));
  const counts = sectors.map((it) => Array.from({ length: places }, (_, p) => !isErased(it.subarray(64 * p, 64 * p + 64))).filter(Boolean).length);
  const active = [0, 1, 2].find((i) => !closed[i] && closed[(i + 2) % 3]);
  if (active === undefined) return { counts, active, state: "no log" };
  const gated = Array.from({ length: places }, (_, p) => p).filter((p) => isSet(sectors[active], 64 * p + 56));
  if (!gated.length) return { counts, active, state: "no record" };
  const at = 64 * gated.at(-1);
  const [kind, set] = sectors[active].subarray(at, at + 2);
  const images = [0, 1, 2, 3, 4, 5, 6, 7].filter((i) => (set >> i) & 1);
  return { counts, active, state: `${KINDS[kind] ?? "?"}${images.length ? ` ${images.join(" ")}` : ""}`, sequence: little(sectors[active], at + 4) };
}
