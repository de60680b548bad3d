// The proved library as WebAssembly: what include/bootswap_simulate.h declares, over the memory of the module.
// A `Device` has a flash in that memory, and its saved state. Nothing here decides.

// The sizes in bytes of the structs of the headers, and the offsets of the fields that are used here.
// tests/library/test_header.py compares both with the headers.
const SIZES = {
  setup: 76,
  saved_state: 420,
  cut: 24,
  version: 8,
  dependency: 12,
  refusal: 60,
  result: 600,
  component: 72,
  manifest: 584,
  description: 464,
};
const OFFSETS = {
  setup: { sector_size: 0, images: 4, sectors: 8, trial_boots: 40 },
  saved_state: { is_booted: 0 },
  cut: { write: 0, residue: 8, pattern_length: 12, pattern: 16 },
  version: { major: 0, minor: 1, revision: 2, build: 4 },
  dependency: { image: 0, minimum: 4 },
  refusal: { image: 0, reason: 4, count: 8, dependencies: 12 },
  result: {
    writes: 0,
    fault: 16,
    detail: 20,
    check: 24,
    set: 28,
    left: 32,
    permanent: 36,
    images: 40,
    refusals: 44,
    table_length: 48,
    report_length: 52,
    versions: 56,
    refused: 120,
  },
  component: { size: 0, image: 4, is_permanent: 5, digest: 8 },
  manifest: { sequence: 0, count: 4, components: 8 },
  description: { version: 8 },
};

// The structs and the buffers, with their sizes in bytes, that are passed to calls.
const STRUCTS = ["setup", "saved_state", "cut", "result", "manifest", "description"];
const CAPACITY = { table: 20480, report: 2048, bytes: 8192 };
const DIGEST = 32;
const PAGE = 65536;

export const NUMBERS = ["done", "booted", "reverted", "trial-again", "refused", "cut"];

const FAULTS = {
  1: "the device hasn't booted",
  2: "a set of images is on trial",
  3: "this image isn't on trial",
  4: "the flash isn't provisioned",
  5: "a running image is damaged",
  6: "the running set isn't valid",
  9: "the manifest is for an image that this device lacks, or twice for the same one",
};

const UPLOAD_FAULTS = {
  1: "a manifest of an older sequence number",
  2: "an image that is longer than its slot",
  3: "no upload of this image is open",
  4: "more bytes than the manifest said",
  5: "fewer bytes than the manifest said",
  6: "another digest than the manifest said",
  7: "the bytes are no intact image",
  8: "another image runs than the manifest asks for",
  9: "nothing is requested for this image",
};

export const versionText = (it) => `${it.major}.${it.minor}.${it.revision}+${it.build}`;

export class Device {
  /** Loads the module, and makes an erased flash for these numbers of sectors of each image's slots. */
  static async load(module, setup) {
    const instance = await WebAssembly.instantiate(module, {});
    return new Device(instance.exports, setup);
  }

  constructor(library, setup) {
    this.library = library;
    this.setup = setup;
    this.length = setup.sectorSize * (2 * setup.sectors.reduce((sum, it) => sum + it + 1, 0) + 4);
    this.place();
    this.flash.fill(0xff);
    this.writeSetup();
  }

  /** Reserves memory after that of the module, one part after the other. */
  place() {
    const { memory } = this.library;
    let at = memory.buffer.byteLength;
    const structs = Object.fromEntries(STRUCTS.map((name) => [name, SIZES[name]]));
    const parts = { ...structs, ...CAPACITY, flash: this.length };
    const needed = Object.values(parts).reduce((sum, it) => sum + it + 8, 0);
    memory.grow(BigInt(Math.ceil(needed / PAGE)));
    this.at = {};
    for (const [name, size] of Object.entries(parts)) {
      this.at[name] = at;
      at += Math.ceil(size / 8) * 8;
    }
    this.memory = new Uint8Array(memory.buffer);
    this.view = new DataView(memory.buffer);
    this.flash = this.memory.subarray(this.at.flash, this.at.flash + this.length);
    this.saved = this.memory.subarray(this.at.saved_state, this.at.saved_state + SIZES.saved_state);
  }

  /** Writes numbers of 32 bits to fields of a struct that begins at an address. */
  write(struct, at, values) {
    for (const [field, value] of Object.entries(values)) this.view.setUint32(at + OFFSETS[struct][field], value, true);
  }

  /** Reads fields of 32 bits from a struct that begins at an address. */
  read(struct, at, ...fields) {
    return fields.map((field) => this.view.getUint32(at + OFFSETS[struct][field], true));
  }

  /** Returns the addresses of the structs in an array that is a field of another struct. */
  rows(struct, at, field, row, count) {
    return Array.from({ length: count }, (_, i) => at + OFFSETS[struct][field] + SIZES[row] * i);
  }

  writeSetup() {
    const { sectorSize, sectors, trialBoots } = this.setup;
    const { setup } = this.at;
    this.write("setup", setup, { sector_size: sectorSize, images: sectors.length, trial_boots: trialBoots });
    sectors.forEach((count, image) => this.view.setUint32(setup + OFFSETS.setup.sectors + 4 * image, count, true));
  }

  pointer(name) {
    return BigInt(this.at[name]);
  }

  /** Copies bytes to the buffer from which calls read them. */
  lend(bytes) {
    this.memory.set(bytes, this.at.bytes);
    return [this.pointer("bytes"), BigInt(bytes.length)];
  }

  /** Writes the list of cuts of a call: at most one here. */
  cuts(cut) {
    if (!cut) return [this.pointer("cut"), 0n];
    const at = this.at.cut;
    const pattern = Array.isArray(cut.left) ? cut.left : [];
    this.view.setBigUint64(at + OFFSETS.cut.write, BigInt(cut.write), true);
    this.write("cut", at, { residue: { keep: 0, done: 1 }[cut.left] ?? 2, pattern_length: pattern.length });
    this.memory.set(pattern, at + OFFSETS.cut.pattern);
    return [this.pointer("cut"), 1n];
  }

  call(name, cut, ...words) {
    const saved = name === "provision" ? [] : [this.pointer("saved_state")];
    const flash = [this.pointer("setup"), this.pointer("flash"), BigInt(this.length)];
    const simulate = this.library[`bootswap_simulate_${name}`];
    const number = simulate(...flash, ...saved, ...this.cuts(cut), ...words, this.pointer("result"));
    return this.reply(number >>> 0);
  }

  reply(number) {
    const at = this.at.result;
    const names = ["fault", "detail", "check", "set", "left", "permanent", "images", "refusals"];
    const values = this.read("result", at, ...names);
    const result = Object.fromEntries(names.map((name, i) => [name, values[i]]));
    [result.tableLength, result.reportLength] = this.read("result", at, "table_length", "report_length");
    const writes = Number(this.view.getBigUint64(at + OFFSETS.result.writes, true));
    return { number, writes, ...result, ...this.decision(result), why: this.why(result) };
  }

  /** Returns the fields and texts of a boot that decided. */
  decision(result) {
    const at = this.at.result;
    const versions = this.rows("result", at, "versions", "version", result.images).map((it) => this.version(it));
    const refused = this.rows("result", at, "refused", "refusal", result.refusals).map((it) => this.refusal(it));
    const table = this.text("table", result.tableLength);
    return { versions, refused, table, report: this.text("report", result.reportLength) };
  }

  version(at) {
    const { major, minor, revision, build } = OFFSETS.version;
    return {
      major: this.view.getUint8(at + major),
      minor: this.view.getUint8(at + minor),
      revision: this.view.getUint16(at + revision, true),
      build: this.view.getUint32(at + build, true),
    };
  }

  refusal(at) {
    const [image, reason, count] = this.read("refusal", at, "image", "reason", "count");
    const needs = this.rows("refusal", at, "dependencies", "dependency", count).map((it) => this.dependency(it));
    return { image, reason, needs };
  }

  dependency(at) {
    const [image] = this.read("dependency", at, "image");
    return { image, minimum: this.version(at + OFFSETS.dependency.minimum) };
  }

  why(result) {
    if (!result.fault) return "";
    return result.fault === 10 ? UPLOAD_FAULTS[result.detail] : FAULTS[result.fault];
  }

  text(name, length) {
    return new TextDecoder().decode(this.memory.slice(this.at[name], this.at[name] + length));
  }

  provision() {
    return this.call("provision");
  }

  boot(cut) {
    const texts = ["table", "report"].flatMap((name) => [this.pointer(name), BigInt(CAPACITY[name])]);
    return this.call("boot", cut, ...texts);
  }

  /** Accepts a manifest with components `{ image, file, permanent }`. */
  accept(sequence, components) {
    const at = this.at.manifest;
    this.memory.fill(0, at, at + SIZES.manifest);
    this.write("manifest", at, { sequence, count: components.length });
    this.rows("manifest", at, "components", "component", components.length).forEach((row, i) => {
      const { image, file, permanent } = components[i];
      this.write("component", row, { size: file.length });
      this.memory[row + OFFSETS.component.image] = image;
      this.memory[row + OFFSETS.component.is_permanent] = permanent ? 1 : 0;
      this.memory.set(this.digest(file), row + OFFSETS.component.digest);
    });
    return this.call("accept", null, this.pointer("manifest"));
  }

  piece(image, bytes) {
    return this.call("piece", null, image, ...this.lend(bytes));
  }

  finish(image) {
    return this.call("finish", null, image);
  }

  withdraw(image) {
    return this.call("withdraw", null, image);
  }

  confirm(image) {
    return this.call("confirm", null, image);
  }

  reset() {
    this.library.bootswap_reset(this.pointer("saved_state"));
  }

  get isBooted() {
    return this.saved[OFFSETS.saved_state.is_booted] === 1;
  }

  digest(bytes) {
    this.library.bootswap_digest(...this.lend(bytes), this.pointer("description"));
    return this.memory.slice(this.at.description, this.at.description + DIGEST);
  }

  /** Returns the version of the image at the front of a slot, or nothing if there is no intact image. */
  slot(image, side) {
    const words = [this.pointer("setup"), this.pointer("flash"), BigInt(this.length), image, side, this.pointer("description")];
    return this.library.bootswap_slot(...words) ? null : this.version(this.at.description + OFFSETS.description.version);
  }

  /** Returns whether a report is right for a table. Both are texts. */
  check(table, report) {
    const texts = new TextEncoder().encode(table + report);
    const split = new TextEncoder().encode(table).length;
    this.memory.set(texts, this.at.table);
    const words = [this.at.table, split, this.at.table + split, texts.length - split].map(BigInt);
    return this.library.bootswap_check(...words, this.pointer("description")) === 0;
  }

  /** Runs a function on the device, then restores its flash and its saved state. */
  aside(run) {
    const flash = this.flash.slice();
    const saved = this.saved.slice();
    try {
      return run();
    } finally {
      this.flash.set(flash);
      this.saved.set(saved);
    }
  }
}
