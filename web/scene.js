// A scene: a device and the actions on it. They determine everything that the page shows. A link has them in its hash.

import { Device, versionText } from "./library.js";
import { makeImage, needsOf, versionOf } from "./images.js";
import { Known, partsOf } from "./flash.js";
import { PerImage } from "./mcuboot.js";

export const SECTOR = 512;
export const SECTORS = 3;
const BODY = 1300;
const MOST_IMAGES = 3;
const MOST_BOOTS = 3;
const MOST_ACTIONS = 1000;
const MOST_PATTERN = 8;

const isWhole = (value, from, to) => Number.isInteger(value) && value >= from && value <= to;
/** Whether a value is an object that has no other keys. */
const isObject = (value, keys) =>
  value !== null && typeof value === "object" && !Array.isArray(value) && Object.keys(value).every((it) => keys.includes(it));

/** A link is in base64 of ASCII, so only a text in ASCII can go back into one. */
const isText = (value) => typeof value === "string" && /^[ -~]{0,999}$/.test(value);

const isPattern = (value) => Array.isArray(value) && isWhole(value.length, 1, MOST_PATTERN) && value.every((it) => isWhole(it, 0, 255));
const isCut = (value) =>
  isObject(value, ["write", "left"]) && isWhole(value.write, 1, Number.MAX_SAFE_INTEGER) &&
  (["keep", "done"].includes(value.left) || isPattern(value.left));
const hasImage = ({ image }, images) => isWhole(image, 0, images - 1);
const isRow = (row, images) =>
  isObject(row, ["image", "version", "needs", "permanent"]) && hasImage(row, images) &&
  [row.version, row.needs].every(isText) && versionOf(row.version) && needsOf(row.needs) && [undefined, false, true].includes(row.permanent);
const areRows = (rows, images) =>
  Array.isArray(rows) && rows.length > 0 && rows.every((it) => isRow(it, images)) && new Set(rows.map((it) => it.image)).size === rows.length;

/** The actions. Each has its arguments, and a function that checks them for a device with this number of images. */
const ACTIONS = {
  boot: [["cut"], ({ cut }) => cut === undefined || isCut(cut)],
  reset: [[], () => true],
  confirm: [["image"], hasImage],
  withdraw: [["image"], hasImage],
  upload: [["rows"], ({ rows }, images) => areRows(rows, images)],
};

function isAction(action, images) {
  if (!Object.hasOwn(ACTIONS, action?.do)) return false;
  const [names, isRight] = ACTIONS[action.do];
  return isObject(action, ["do", ...names]) && isRight(action, images);
}

/** Returns the setup and the actions of a scene in the hash of a link, or null if the hash isn't valid. */
export function startOfHash(hash) {
  if (hash.length < 2) return { images: 2, boots: 1, actions: [] };
  let given;
  try {
    given = JSON.parse(atob(hash.slice(1)));
  } catch {
    return null;
  }
  if (!isObject(given, ["images", "boots", "actions"])) return null;
  const { images = 2, boots = 1, actions = [] } = given;
  if (!isWhole(images, 1, MOST_IMAGES) || !isWhole(boots, 1, MOST_BOOTS)) return null;
  const isKnown = Array.isArray(actions) && actions.length <= MOST_ACTIONS && actions.every((it) => isAction(it, images));
  return isKnown ? { images, boots, actions } : null;
}

export const hashOf = (start) => `#${btoa(JSON.stringify(start))}`;

/** A device, and what happened to it. */
export class Scene {
  static async load(module, { images, boots, actions }) {
    const setup = { sectorSize: SECTOR, sectors: Array(images).fill(SECTORS), trialBoots: boots };
    const scene = new Scene(await Device.load(module, setup), { images, boots });
    actions.forEach((it) => scene.act(it));
    return scene;
  }

  constructor(device, start) {
    Object.assign(this, { device, start, actions: [], events: [], sequence: 0, known: new Known(SECTOR) });
    this.parts = partsOf(device.setup);
    const first = { version: versionOf("1.0.0"), needs: [] };
    for (let image = 0; image < start.images; image += 1) this.write(image, this.file(image, first));
    this.perImage = new PerImage(Array(start.images).fill(first));
    this.say("provision", "provision", device.provision());
  }

  part(kind, image, side) {
    return this.parts.find((it) => it.kind === kind && it.image === image && it.side === side);
  }

  file(image, { version, needs }) {
    const made = makeImage((bytes) => this.device.digest(bytes), image, version, needs, BODY);
    this.known.add(made, { image, version });
    return made;
  }

  write(image, file) {
    this.device.flash.set(file, this.part("slot", image, 0).at);
  }

  act(action) {
    if (!isAction(action, this.start.images)) throw new TypeError(`no action: ${JSON.stringify(action)}`);
    this.actions.push(action);
    this[action.do](action);
  }

  boot({ cut }) {
    const reply = this.device.boot(cut);
    this.say("boot", cut ? `boot, cut at write ${cut.write}` : "boot", reply);
    // A boot after a power cut continues the same boot, so MCUboot's rule is applied once for both.
    if (reply.number !== 5) this.perImage.boot();
  }

  reset() {
    this.device.reset();
    this.say("reset", "reset", { number: 0, why: "" });
  }

  confirm({ image }) {
    const reply = this.device.confirm(image);
    this.say("confirm", `confirm image ${image}`, reply);
    if (!reply.number) this.perImage.confirm(image);
  }

  withdraw({ image }) {
    const reply = this.device.withdraw(image);
    this.say("withdraw", `withdraw image ${image}`, reply);
    if (!reply.number) this.perImage.withdraw(image);
  }

  upload({ rows }) {
    const given = rows.map((it) => ({ ...it, version: versionOf(it.version), needs: needsOf(it.needs) }));
    const components = given.map((it) => ({ ...it, file: this.file(it.image, it) }));
    const names = given.map((it) => `image ${it.image} ${versionText(it.version)}`).join(", ");
    this.sequence += 1;
    const replies = [this.device.accept(this.sequence, components)];
    if (!replies[0].number) {
      for (const { image, file } of components) replies.push(this.device.piece(image, file), this.device.finish(image));
      given.forEach((it) => this.perImage.request(it.image, it, it.permanent));
    }
    this.say("upload", `upload ${names}`, replies.find((it) => it.number) ?? replies[0]);
  }

  say(action, what, reply) {
    const isChecked = reply.report ? this.device.check(reply.table, reply.report) : null;
    this.events.push({ action, what, reply, isChecked });
  }

  /** Returns the number of writes of the next boot. */
  get writes() {
    return this.device.aside(() => this.device.boot().writes);
  }

  /** Returns the flash after this number of writes of the next boot. */
  after(count, writes) {
    return this.device.aside(() => {
      if (count) this.device.boot(count < writes ? { write: count + 1, left: "keep" } : null);
      return this.device.flash.slice();
    });
  }

  get hash() {
    return hashOf({ ...this.start, actions: this.actions });
  }
}

const PAIR = [0, 1].map((image) => ({ image, version: "2.0.0", needs: `${1 - image} 2.0.0`, permanent: false }));
const BOOT = { do: "boot" };

/** Prepared scenes, by the names of their links. */
export const EXAMPLES = {
  "example-cut": { images: 2, boots: 1, actions: [BOOT, { do: "upload", rows: PAIR }, { do: "boot", cut: { write: 50, left: [0x5a, 0xa5] } }] },
  "example-reverted": { images: 2, boots: 1, actions: [BOOT, { do: "upload", rows: PAIR }, BOOT, { do: "confirm", image: 0 }, BOOT] },
  "example-refused": { images: 2, boots: 1, actions: [BOOT, { do: "upload", rows: PAIR.slice(0, 1) }, BOOT] },
};
